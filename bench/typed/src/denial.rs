//! Why a request isn't granted.
use crate::put::{put, put_number};

/// The clause that doesn't hold, or `Full` if the lab allows no further event.
#[derive(Clone, Copy)]
pub enum Denial {
    NotGreeted,
    Greeted,
    Unknown,
    Hidden,
    NotOwner,
    Stale(u64),
    Chosen,
    Guard,
    NotTeacher,
    Empty,
    NoNode,
    BadRegister,
    Loop,
    Linked,
    NotLinked,
    NotChosen,
    Full,
}

impl Denial {
    /// Appends the reply.
    pub fn put(self, out: &mut Vec<u8>) {
        if let Denial::Stale(number) = self {
            put(out, r#"{"at":"#);
            put_number(out, number);
        }
        put(out, self.text());
    }

    fn text(self) -> &'static str {
        match self {
            Denial::NotGreeted => r#"{"clause":0,"deny":"not-greeted","text":"say hello first"}"#,
            Denial::Greeted => r#"{"clause":1,"deny":"greeted","text":"this connection has a name already"}"#,
            Denial::Unknown => r#"{"clause":2,"deny":"unknown","text":"name and key do not match"}"#,
            Denial::Hidden => r#"{"clause":1,"deny":"hidden","text":"this node is not shown to you"}"#,
            Denial::NotOwner => r#"{"clause":1,"deny":"not-owner","text":"you do not own this node"}"#,
            Denial::Stale(_) => r#","clause":2,"deny":"stale","text":"this is not the current configuration"}"#,
            Denial::Chosen => r#"{"clause":3,"deny":"chosen","text":"this node is already chosen"}"#,
            Denial::Guard => r#"{"clause":4,"deny":"guard","text":"the guard of this rule does not hold"}"#,
            Denial::NotTeacher => r#"{"clause":1,"deny":"not-teacher","text":"only the teacher may do this"}"#,
            Denial::Empty => r#"{"clause":2,"deny":"empty","text":"no node is chosen"}"#,
            Denial::NoNode => r#"{"clause":2,"deny":"no-node","text":"there is no such node"}"#,
            Denial::BadRegister => r#"{"clause":3,"deny":"bad-register","text":"p must be null or a neighbour"}"#,
            Denial::Loop => r#"{"clause":3,"deny":"loop","text":"a node is not linked to itself"}"#,
            Denial::Linked => r#"{"clause":4,"deny":"linked","text":"these nodes are linked already"}"#,
            Denial::NotLinked => r#"{"clause":3,"deny":"not-linked","text":"these nodes are not linked"}"#,
            Denial::NotChosen => r#"{"clause":3,"deny":"not-chosen","text":"this node is not chosen"}"#,
            Denial::Full => r#"{"refuse":"full"}"#,
        }
    }
}
