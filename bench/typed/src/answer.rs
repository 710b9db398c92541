//! The answer to a line.
use crate::acts::{event_of, put_granted};
use crate::denial::Denial;
use crate::journal::put_event;
use crate::lab::{Lab, Who};
use crate::put::put;
use crate::request::{Act, Request};
use crate::views::{look, report, see};
use crate::world::World;
use std::fs::File;
use std::io::Write;
use std::sync::RwLock;

/// A world, the number of events so far, and the file of their journal.
pub struct Book {
    pub world: World,
    pub events: u64,
    journal: Option<File>,
    line: Vec<u8>,
}

impl Book {
    /// Returns a book without events.
    pub fn new(world: World, journal: Option<File>) -> Book {
        Book { world, events: 0, journal, line: Vec::with_capacity(256) }
    }

    fn act(&mut self, lab: &Lab, who: Who, act: Act, out: &mut Vec<u8>) -> Result<(), Denial> {
        let event = event_of(lab, &self.world, who, act)?;
        if self.events == lab.events {
            return Err(Denial::Full);
        }
        self.events += 1;
        if let Some(file) = &mut self.journal {
            self.line.clear();
            put_event(lab, self.events, self.world.number, who, event, &mut self.line);
            put(&mut self.line, "\n");
            file.write_all(&self.line).expect("the journal took no more");
        }
        let done = self.world.apply(event);
        put_granted(lab, self.world.number, self.events, event, done, out);
        Ok(())
    }
}

/// A book that only one thread uses, or one under a lock.
pub trait Shared {
    /// Calls a function with the world of the book.
    fn view<R>(&mut self, call: impl FnOnce(&World) -> R) -> R;
    /// Calls a function that may change the book.
    fn change<R>(&mut self, call: impl FnOnce(&mut Book) -> R) -> R;
}

impl Shared for Book {
    #[inline(always)]
    fn view<R>(&mut self, call: impl FnOnce(&World) -> R) -> R {
        call(&self.world)
    }

    #[inline(always)]
    fn change<R>(&mut self, call: impl FnOnce(&mut Book) -> R) -> R {
        call(self)
    }
}

impl Shared for &RwLock<Book> {
    #[inline(always)]
    fn view<R>(&mut self, call: impl FnOnce(&World) -> R) -> R {
        call(&self.read().expect("a thread panicked").world)
    }

    #[inline(always)]
    fn change<R>(&mut self, call: impl FnOnce(&mut Book) -> R) -> R {
        call(&mut self.write().expect("a thread panicked"))
    }
}

/// Appends the reply to a line, with a newline. Returns whether the line was a bye.
#[inline(always)]
pub fn answer<S: Shared>(lab: &Lab, book: &mut S, known: &mut Option<Who>, line: &[u8], out: &mut Vec<u8>) -> bool {
    let mut is_bye = false;
    match Request::read(line) {
        None => put(out, r#"{"refuse":"malformed"}"#),
        Some(Request::Bye) => {
            is_bye = true;
            *known = None;
            put(out, r#"{"ok":"bye"}"#);
        }
        Some(request) => {
            if let Err(denial) = obey(lab, book, known, request, out) {
                denial.put(out);
            }
        }
    }
    out.push(b'\n');
    is_bye
}

#[inline(always)]
fn obey<S: Shared>(
    lab: &Lab,
    book: &mut S,
    known: &mut Option<Who>,
    request: Request,
    out: &mut Vec<u8>,
) -> Result<(), Denial> {
    let who = match (*known, &request) {
        (Some(who), _) => who,
        (None, Request::Hello { .. }) => Who::Teacher,
        (None, _) => return Err(Denial::NotGreeted),
    };
    match request {
        Request::Hello { name, key } => greet(lab, known, &name, &key, out),
        Request::Bye => Ok(()),
        Request::See(node) => book.view(|world| see(lab, world, who, node, out)),
        Request::Look(node) => book.view(|world| look(lab, world, who, node, out)),
        Request::Report => book.view(|world| report(lab, world, who, out)),
        Request::Act(act) => book.change(|book| book.act(lab, who, act, out)),
    }
}

fn greet(lab: &Lab, known: &mut Option<Who>, name: &str, key: &str, out: &mut Vec<u8>) -> Result<(), Denial> {
    if known.is_some() {
        return Err(Denial::Greeted);
    }
    let who = lab.greeted(name, key).ok_or(Denial::Unknown)?;
    *known = Some(who);
    put(out, r#"{"ok":"hello","who":""#);
    put(out, lab.name(who));
    put(out, "\"}");
    Ok(())
}
