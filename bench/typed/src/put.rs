//! Appending the parts of replies and journals to a buffer.
use crate::lab::Lab;
use crate::rule::Rule;

/// Appends a text.
#[inline(always)]
pub fn put(out: &mut Vec<u8>, text: &str) {
    out.extend_from_slice(text.as_bytes());
}

/// Appends a number in decimal.
#[inline(always)]
pub fn put_number(out: &mut Vec<u8>, number: u64) {
    put(out, itoa::Buffer::new().format(number));
}

/// Appends `true` or `false`. There is a call for each literal, because the compiler needs no call to copy a text whose
/// length it knows.
#[inline(always)]
pub fn put_truth(out: &mut Vec<u8>, truth: bool) {
    if truth {
        put(out, "true");
    } else {
        put(out, "false");
    }
}

/// Appends the identifier of a node.
#[inline(always)]
pub fn put_id(out: &mut Vec<u8>, lab: &Lab, rank: usize) {
    put_number(out, lab.id(rank));
}

/// Appends a register `p`.
#[inline(always)]
pub fn put_pointer(out: &mut Vec<u8>, lab: &Lab, p: Option<usize>) {
    match p {
        None => put(out, "null"),
        Some(mate) => put_id(out, lab, mate),
    }
}

/// Appends the name of a rule in quotes, or null.
#[inline(always)]
pub fn put_rule(out: &mut Vec<u8>, rule: Option<Rule>) {
    match rule {
        None => put(out, "null"),
        Some(Rule::Update) => put(out, r#""update""#),
        Some(Rule::Marriage) => put(out, r#""marriage""#),
        Some(Rule::Seduction) => put(out, r#""seduction""#),
        Some(Rule::Abandonment) => put(out, r#""abandonment""#),
    }
}

/// Appends a comma, unless the next item is the first one of its list.
#[inline(always)]
pub fn put_comma(out: &mut Vec<u8>, is_first: &mut bool) {
    if !std::mem::take(is_first) {
        put(out, ",");
    }
}
