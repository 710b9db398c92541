//! Splitting input into lines, and answering them.
use std::io::{Read, Write};

/// Answers each line of the input, with one write after each read. Stops at the end of the input, at a line for which
/// there is no room, after a failed write, or when `answer` returns true.
#[inline(always)]
pub fn answer_lines(
    input: &mut impl Read,
    output: &mut impl Write,
    room: usize,
    mut answer: impl FnMut(&[u8], &mut Vec<u8>) -> bool,
) {
    let mut held = vec![0; room];
    let (mut start, mut end) = (0, 0);
    let mut out = Vec::with_capacity(1 << 18);
    let mut is_over = false;
    while !is_over && end < held.len() {
        let count = input.read(&mut held[end..]).unwrap_or(0);
        let mut from = end;
        end += count;
        is_over = count == 0;
        while let (false, Some(length)) = (is_over, memchr::memchr(b'\n', &held[from..end])) {
            is_over = answer(&held[start..from + length], &mut out);
            from += length + 1;
            start = from;
        }
        is_over |= output.write_all(&out).is_err();
        out.clear();
        held.copy_within(start..end, 0);
        end -= start;
        start = 0;
    }
}
