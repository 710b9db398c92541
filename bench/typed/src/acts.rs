//! The clauses of requests that change the world, and the replies of those that are granted.
use crate::denial::Denial;
use crate::lab::{Lab, Who};
use crate::put::{put, put_id, put_number, put_rule};
use crate::request::Act;
use crate::rule::Rule;
use crate::views::put_ids;
use crate::world::{Done, Event, World};

/// Returns the event that a request asks for, or the denial by the first clause that doesn't hold.
pub fn event_of(lab: &Lab, world: &World, who: Who, act: Act) -> Result<Event, Denial> {
    if let Act::Move { node, rule, with, at } = act {
        let rank = lab.rank(node).filter(|&rank| lab.owns(who, rank)).ok_or(Denial::NotOwner)?;
        return move_of(world, rank, rule, with.and_then(|id| lab.rank(id)), at);
    }
    if who != Who::Teacher {
        return Err(Denial::NotTeacher);
    }
    let rank = |id: u64| lab.rank(id).ok_or(Denial::NoNode);
    match act {
        Act::Move { .. } => Err(Denial::NotOwner),
        Act::Release(node) => release_of(world, rank(node)?),
        Act::Close if world.count() == 0 => Err(Denial::Empty),
        Act::Close => Ok(Event::Close),
        Act::Fault { node, p, m } => fault_of(lab, world, rank(node)?, p, m),
        Act::Link(a, b) => link_of(world, rank(a)?, rank(b)?),
        Act::Cut(a, b) => cut_of(world, rank(a)?, rank(b)?),
    }
}

fn move_of(world: &World, rank: usize, rule: Rule, mate: Option<usize>, at: u64) -> Result<Event, Denial> {
    if at != world.number {
        Err(Denial::Stale(world.number))
    } else if world.chosen(rank).is_some() {
        Err(Denial::Chosen)
    } else if !world.holds(rank, rule, mate) {
        Err(Denial::Guard)
    } else {
        Ok(Event::Move { rank, rule, mate })
    }
}

fn fault_of(lab: &Lab, world: &World, rank: usize, p: Option<u64>, m: bool) -> Result<Event, Denial> {
    let near = world.near(rank);
    let p = match p {
        None => None,
        Some(id) => Some(lab.rank(id).filter(|&mate| near.contains(mate)).ok_or(Denial::BadRegister)?),
    };
    Ok(Event::Fault { rank, p, m })
}

fn link_of(world: &World, a: usize, b: usize) -> Result<Event, Denial> {
    if a == b {
        Err(Denial::Loop)
    } else if world.near(a).contains(b) {
        Err(Denial::Linked)
    } else {
        Ok(Event::Link(a, b))
    }
}

fn cut_of(world: &World, a: usize, b: usize) -> Result<Event, Denial> {
    if world.near(a).contains(b) {
        Ok(Event::Cut(a, b))
    } else {
        Err(Denial::NotLinked)
    }
}

fn release_of(world: &World, rank: usize) -> Result<Event, Denial> {
    if world.chosen(rank).is_some() {
        Ok(Event::Release(rank))
    } else {
        Err(Denial::NotChosen)
    }
}

/// Appends the reply to a granted request. `number` is that of the configuration after the event.
pub fn put_granted(lab: &Lab, number: u64, place: u64, event: Event, done: Done, out: &mut Vec<u8>) {
    if let Event::Link(a, _) | Event::Cut(a, _) = event {
        put(out, r#"{"a":"#);
        put_id(out, lab, a);
        put(out, r#","at":"#);
    } else {
        put(out, r#"{"at":"#);
    }
    put_number(out, number);
    if let Event::Link(_, b) | Event::Cut(_, b) = event {
        put(out, r#","b":"#);
        put_id(out, lab, b);
    }
    match (event, done) {
        (Event::Close, Done::Moved(row)) => {
            put(out, r#","moved":["#);
            put_ids(out, lab, row);
            put(out, "]");
        }
        (Event::Fault { .. } | Event::Link(..) | Event::Cut(..), Done::Dropped(count)) => {
            put(out, r#","dropped":"#);
            put_number(out, count as u64);
        }
        _ => {}
    }
    if let Event::Move { rank, .. } | Event::Release(rank) | Event::Fault { rank, .. } = event {
        put(out, r#","node":"#);
        put_id(out, lab, rank);
    }
    put_end(place, event, out);
}

/// Appends the last part of the reply to a granted request: its word, its place, and for a move its rule.
fn put_end(place: u64, event: Event, out: &mut Vec<u8>) {
    match event {
        Event::Move { .. } => put(out, r#","ok":"move","place":"#),
        Event::Release(_) => put(out, r#","ok":"release","place":"#),
        Event::Close => put(out, r#","ok":"close","place":"#),
        Event::Fault { .. } => put(out, r#","ok":"fault","place":"#),
        Event::Link(..) => put(out, r#","ok":"link","place":"#),
        Event::Cut(..) => put(out, r#","ok":"cut","place":"#),
    }
    put_number(out, place);
    if let Event::Move { rule, .. } = event {
        put(out, r#","rule":"#);
        put_rule(out, Some(rule));
    }
    put(out, "}");
}
