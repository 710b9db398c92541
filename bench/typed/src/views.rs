//! The replies to `see`, `look` and `report`.
use crate::denial::Denial;
use crate::lab::{Lab, Who};
use crate::put::{put, put_comma, put_id, put_number, put_pointer, put_rule, put_truth};
use crate::row::Row;
use crate::rule::Rule;
use crate::world::World;

/// Appends the reply to `see`.
#[inline(always)]
pub fn see(lab: &Lab, world: &World, who: Who, node: u64, out: &mut Vec<u8>) -> Result<(), Denial> {
    let shown = lab.rank(node).filter(|&rank| lab.may_see(who, rank, world.near(rank)));
    let rank = shown.ok_or(Denial::Hidden)?;
    put(out, r#"{"at":"#);
    put_number(out, world.number);
    put(out, r#","m":"#);
    put_truth(out, world.m(rank));
    put(out, r#","node":"#);
    put_number(out, node);
    put(out, r#","ok":"see","p":"#);
    put_pointer(out, lab, world.p(rank));
    put(out, "}");
    Ok(())
}

/// Appends the reply to `look`.
#[inline(always)]
pub fn look(lab: &Lab, world: &World, who: Who, node: u64, out: &mut Vec<u8>) -> Result<(), Denial> {
    let shown = lab.rank(node).filter(|&rank| who == Who::Teacher || lab.owns(who, rank));
    let rank = shown.ok_or(Denial::NotOwner)?;
    put(out, r#"{"at":"#);
    put_number(out, world.number);
    put(out, r#","chosen":"#);
    put_rule(out, world.chosen(rank));
    put(out, r#","m":"#);
    put_truth(out, world.m(rank));
    put(out, r#","near":["#);
    put_near(lab, world, rank, out);
    put(out, r#"],"node":"#);
    put_number(out, node);
    put(out, r#","ok":"look","p":"#);
    put_pointer(out, lab, world.p(rank));
    put(out, r#","rule":"#);
    put_rule(out, world.enabled(rank));
    put(out, "}");
    Ok(())
}

#[inline(always)]
fn put_near(lab: &Lab, world: &World, rank: usize, out: &mut Vec<u8>) {
    let mut is_first = true;
    world.near(rank).for_each(|near| {
        put_comma(out, &mut is_first);
        if world.m(near) {
            put(out, r#"{"m":true,"node":"#);
        } else {
            put(out, r#"{"m":false,"node":"#);
        }
        put_id(out, lab, near);
        put(out, r#","p":"#);
        put_pointer(out, lab, world.p(near));
        put(out, "}");
    });
}

/// Appends the reply to `report`.
pub fn report(lab: &Lab, world: &World, who: Who, out: &mut Vec<u8>) -> Result<(), Denial> {
    if who != Who::Teacher {
        return Err(Denial::NotTeacher);
    }
    let mut free = Row::EMPTY;
    for rank in 0..world.size() {
        free.set(rank, !world.is_married(rank));
    }
    put(out, r#"{"at":"#);
    put_number(out, world.number);
    put(out, r#","free":["#);
    put_ids(out, lab, free);
    put(out, r#"],"ok":"report","open":["#);
    put_open(lab, world, free, out);
    put(out, r#"],"pairs":["#);
    put_pairs(lab, world, free, out);
    put(out, r#"],"privileged":["#);
    put_privileged(lab, world, out);
    put(out, r#"],"stable":"#);
    put_truth(out, world.privileged().is_empty());
    put(out, "}");
    Ok(())
}

/// Appends the identifiers of nodes, separated by commas.
pub fn put_ids(out: &mut Vec<u8>, lab: &Lab, row: Row) {
    let mut is_first = true;
    row.for_each(|rank| {
        put_comma(out, &mut is_first);
        put_id(out, lab, rank);
    });
}

/// Returns the first privileged node to which the pointers lead from a node, and its enabled rule. Returns `None` if
/// there is no such node, or its rule is Seduction.
fn walked(world: &World, from: usize) -> Option<(usize, Rule)> {
    let mut rank = from;
    while !world.privileged().contains(rank) {
        rank = world.p(rank)?;
    }
    let rule = world.enabled(rank)?;
    (rule != Rule::Seduction).then(|| (rank, rule))
}

fn put_open(lab: &Lab, world: &World, free: Row, out: &mut Vec<u8>) {
    let mut is_first = true;
    free.for_each(|a| {
        let of_lower = walked(world, a);
        world.near(a).and(Row::above(a)).and(free).for_each(|b| {
            let found = of_lower.or_else(|| walked(world, b));
            let (witness, rule) = found.unwrap_or((a, Rule::Seduction));
            put_comma(out, &mut is_first);
            put(out, "[");
            put_id(out, lab, a);
            put(out, ",");
            put_id(out, lab, b);
            put(out, ",");
            put_id(out, lab, witness);
            put(out, ",");
            put_rule(out, Some(rule));
            put(out, "]");
        });
    });
}

fn put_pairs(lab: &Lab, world: &World, free: Row, out: &mut Vec<u8>) {
    let mut is_first = true;
    for a in (0..world.size()).filter(|&a| !free.contains(a)) {
        if let Some(b) = world.p(a).filter(|&b| b > a) {
            put_comma(out, &mut is_first);
            put(out, "[");
            put_id(out, lab, a);
            put(out, ",");
            put_id(out, lab, b);
            put(out, "]");
        }
    }
}

fn put_privileged(lab: &Lab, world: &World, out: &mut Vec<u8>) {
    let mut is_first = true;
    world.privileged().for_each(|rank| {
        put_comma(out, &mut is_first);
        put(out, "[");
        put_id(out, lab, rank);
        put(out, ",");
        put_rule(out, world.enabled(rank));
        put(out, "]");
    });
}
