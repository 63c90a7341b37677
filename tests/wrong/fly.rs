//! Flies recorded flights through one version of the guidance, to the first answer that differs from the recorded one.
//!
//!   fly BASE..    each BASE.flight has its answers in BASE.answers
//!
//! Prints "FILE RECORD" and ends with status 10 at a difference; ends with status 0 where there is none, and with 11
//! where a file cannot be read. The records, their refusals and the answers' bytes are the oracle's own code around the
//! guidance.

#![allow(dead_code)]

#[path = "../oracle/src/config.rs"]
mod config;
#[path = "../oracle/src/craft.rs"]
mod craft;
#[path = "../oracle/src/records.rs"]
mod records;
#[path = "../oracle/src/words.rs"]
mod words;

use std::process::ExitCode;

use craft::Craft;
use records::{Answer, Refusal};
use words::Writer;

const DIFFERS: u8 = 10;
const CANNOT_READ: u8 = 11;

fn main() -> ExitCode {
    for base in std::env::args().skip(1) {
        let read = |end: &str| std::fs::read(format!("{base}.{end}"));
        let (Ok(flight), Ok(answers)) = (read("flight"), read("answers")) else {
            return ExitCode::from(CANNOT_READ);
        };
        if let Some(record) = first_difference(&flight, &answers) {
            println!("{base} {record}");
            return ExitCode::from(DIFFERS);
        }
    }
    ExitCode::SUCCESS
}

/// The number of the first record whose answer is not the recorded one.
fn first_difference(mut flight: &[u8], mut recorded: &[u8]) -> Option<usize> {
    let mut craft = Craft::default();
    let mut out = Writer::default();
    let mut number = 0;
    while let Some((&kind, rest)) = flight.split_first() {
        number += 1;
        let (answer, rest) = answer(&mut craft, kind, rest);
        out.bytes.clear();
        answer.write(&mut out);
        match recorded.strip_prefix(&out.bytes[..]) {
            Some(left) => recorded = left,
            None => return Some(number),
        }
        flight = rest;
    }
    (!recorded.is_empty()).then_some(number)
}

/// The answer to a record, and the bytes after it. None follow where the flight ends.
fn answer<'a>(craft: &mut Craft, kind: u8, rest: &'a [u8]) -> (Answer, &'a [u8]) {
    match records::body_length(kind) {
        None => (Answer::Refused(Refusal::Kind), &[]),
        Some(length) if rest.len() < length => (Answer::Refused(Refusal::Cut), &[]),
        Some(length) => (craft.answer(kind, &rest[..length]), &rest[length..]),
    }
}
