//! The program that a good programmer would write without proofs. It has the same protocol as `mml`, reads each line
//! into a struct, reuses its buffers, and writes once after each read. The speed of `mml` is compared with that of this
//! program. No class uses it.
//!
//!     typed script LAB SCRIPT [JOURNAL]
//!     typed serve LAB PORT CONNECTIONS [JOURNAL]
//!     typed audit LAB JOURNAL
//!     typed echo PORT CONNECTIONS
mod acts;
mod answer;
mod denial;
mod journal;
mod lab;
mod lines;
mod put;
mod request;
mod row;
mod rule;
mod serving;
mod views;
mod world;

use crate::answer::Book;
use crate::lab::Lab;
use std::fs::File;
use std::path::Path;
use std::process::exit;

fn main() {
    let words: Vec<String> = std::env::args().skip(1).collect();
    let words: Vec<&str> = words.iter().map(String::as_str).collect();
    match words[..] {
        ["script", lab, script] => run_script(lab, script, None),
        ["script", lab, script, journal] => run_script(lab, script, Some(journal)),
        ["serve", lab, port, count] => run_server(lab, port, count, None),
        ["serve", lab, port, count, journal] => run_server(lab, port, count, Some(journal)),
        ["audit", lab, journal] => run_audit(lab, journal),
        ["echo", port, count] => serving::echo(number(port), number(count)),
        _ => {
            eprintln!("typed: not understood: {}", words.join(" "));
            exit(1);
        }
    }
}

fn open(lab: &str, journal: Option<&str>) -> (Lab, Book) {
    let (lab, world) = Lab::read(Path::new(lab));
    let file = journal.map(|path| File::create(path).expect("the journal can't be made"));
    (lab, Book::new(world, file))
}

fn run_script(lab: &str, script: &str, journal: Option<&str>) {
    let (lab, mut book) = open(lab, journal);
    let input = File::open(script).expect("the script can't be read");
    serving::run_script(&lab, &mut book, input);
}

fn run_server(lab: &str, port: &str, count: &str, journal: Option<&str>) {
    let (lab, book) = open(lab, journal);
    let book = serving::serve(lab, book, number(port), number(count));
    println!("done: {} events, configuration {}", book.events, book.world.number);
}

fn number(word: &str) -> u16 {
    word.parse().expect("PORT and CONNECTIONS are numbers")
}

fn run_audit(lab: &str, journal: &str) {
    let (lab, world) = Lab::read(Path::new(lab));
    let text = std::fs::read(journal).expect("the journal can't be read");
    match journal::audit(&lab, world, &text) {
        Ok((place, world)) => {
            let stable = if world.privileged().is_empty() { "stable" } else { "not stable" };
            println!("ok: {place} events, configuration {}, {stable}", world.number);
        }
        Err(line) => {
            eprintln!("audit: line {line}: bad line");
            exit(3);
        }
    }
}
