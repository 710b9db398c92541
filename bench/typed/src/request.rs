//! Requests. A line is read into a struct, without a tree of its values.
use crate::rule::Rule;
use serde::{Deserialize, Deserializer};
use serde_json::Value;
use std::borrow::Cow;

/// A request. Its nodes are identifiers, as in the line.
pub enum Request<'a> {
    Hello { name: Cow<'a, str>, key: Cow<'a, str> },
    Bye,
    See(u64),
    Look(u64),
    Report,
    Act(Act),
}

/// A request for an event.
#[derive(Clone, Copy)]
pub enum Act {
    Move { node: u64, rule: Rule, with: Option<u64>, at: u64 },
    Release(u64),
    Close,
    Fault { node: u64, p: Option<u64>, m: bool },
    Link(u64, u64),
    Cut(u64, u64),
}

#[derive(Deserialize, Clone, Copy)]
#[serde(rename_all = "lowercase")]
enum Word {
    Hello,
    Bye,
    See,
    Look,
    Move,
    Close,
    Fault,
    Link,
    Cut,
    Release,
    Report,
}

/// The values of all keys that a request may have. `p` is the outer `None` if it is missing, and the inner `None` if it
/// is null.
#[derive(Deserialize)]
struct Line<'a> {
    r#do: Word,
    name: Option<&'a str>,
    key: Option<&'a str>,
    node: Option<u64>,
    rule: Option<Rule>,
    with: Option<u64>,
    at: Option<u64>,
    #[serde(default, deserialize_with = "given")]
    p: Option<Option<u64>>,
    m: Option<bool>,
    a: Option<u64>,
    b: Option<u64>,
}

fn given<'de, D: Deserializer<'de>>(from: D) -> Result<Option<Option<u64>>, D::Error> {
    Option::deserialize(from).map(Some)
}

impl<'a> Request<'a> {
    /// Returns the request in a line, or `None` if the line isn't a request.
    #[inline(always)]
    pub fn read(line: &'a [u8]) -> Option<Request<'a>> {
        let text = std::str::from_utf8(line).ok()?;
        match serde_json::from_str(text) {
            Ok(read) => Request::of(&read),
            Err(_) => Request::read_by_value(text),
        }
    }

    #[inline(always)]
    fn of(line: &Line<'a>) -> Option<Request<'a>> {
        Some(match line.r#do {
            Word::Hello => Request::Hello { name: line.name?.into(), key: line.key?.into() },
            Word::Bye => Request::Bye,
            Word::See => Request::See(line.node?),
            Word::Look => Request::Look(line.node?),
            Word::Report => Request::Report,
            Word::Move => Request::Act(Act::of_move(line.node?, line.rule?, line.with, line.at?)?),
            Word::Release => Request::Act(Act::Release(line.node?)),
            Word::Close => Request::Act(Act::Close),
            Word::Fault => Request::Act(Act::Fault { node: line.node?, p: line.p?, m: line.m? }),
            Word::Link => Request::Act(Act::Link(line.a?, line.b?)),
            Word::Cut => Request::Act(Act::Cut(line.a?, line.b?)),
        })
    }

    /// Reads a line in a slower way, by a tree of its values. This is for lines that the struct doesn't accept: with
    /// escapes, with a key that occurs twice, or with a wrong kind of value under a key that this request doesn't need.
    #[cold]
    #[inline(never)]
    fn read_by_value(line: &str) -> Option<Request<'a>> {
        let value: Value = serde_json::from_str(line).ok()?;
        let number = |key: &str| value.get(key)?.as_u64();
        let owned = |key: &str| Some(Cow::Owned(value.get(key)?.as_str()?.to_string()));
        Some(match value.as_object()?.get("do")?.as_str()? {
            "hello" => Request::Hello { name: owned("name")?, key: owned("key")? },
            "bye" => Request::Bye,
            "see" => Request::See(number("node")?),
            "look" => Request::Look(number("node")?),
            "report" => Request::Report,
            word => Request::Act(Act::of_value(word, &value)?),
        })
    }
}

impl Act {
    /// Returns the request for a move. A marriage needs `with`, and the other rules ignore it.
    #[inline(always)]
    fn of_move(node: u64, rule: Rule, with: Option<u64>, at: u64) -> Option<Act> {
        let with = if rule == Rule::Marriage { Some(with?) } else { None };
        Some(Act::Move { node, rule, with, at })
    }

    fn of_value(word: &str, value: &Value) -> Option<Act> {
        let number = |key: &str| value.get(key)?.as_u64();
        Some(match word {
            "move" => {
                let rule = Rule::named(value.get("rule")?.as_str()?)?;
                Act::of_move(number("node")?, rule, number("with"), number("at")?)?
            }
            "release" => Act::Release(number("node")?),
            "close" => Act::Close,
            "fault" => Act::Fault {
                node: number("node")?,
                p: if value.get("p")?.is_null() { None } else { Some(number("p")?) },
                m: value.get("m")?.as_bool()?,
            },
            "link" => Act::Link(number("a")?, number("b")?),
            "cut" => Act::Cut(number("a")?, number("b")?),
            _ => return None,
        })
    }
}
