//! What is known of the Rust, measured again: tables of results, the worked flights of document
//! 01, flights with surprising answers, the rules of a configuration, and the claim that a
//! fresh craft flies on as the one that it replaces.

mod flights;
mod fresh;
mod leaves;
mod rules;
mod worked;

use std::fmt::Debug;

use crate::craft::Craft;
use crate::functions;
use crate::words::{Reader, Writer};

/// Counts what holds and prints what does not.
#[derive(Default)]
pub struct Facts {
    pub held: usize,
    pub failed: usize,
}

impl Facts {
    /// Notes whether `found` is what was expected.
    pub fn same<T: PartialEq + Debug>(&mut self, what: &str, found: T, expected: T) {
        if found == expected {
            self.held += 1;
        } else {
            self.failed += 1;
            println!("FAILED {what}: found {found:08X?}, expected {expected:08X?}");
        }
    }
}

/// Runs all facts. With `every`, angles are wrapped from every bit pattern and not from a sample.
pub fn run(every: bool) -> Facts {
    let mut facts = Facts::default();
    leaves::check(&mut facts, every);
    worked::check(&mut facts);
    flights::check(&mut facts);
    rules::check(&mut facts);
    fresh::check(&mut facts);
    facts
}

/// The words out of consecutive calls of a function with the words in.
fn call(name: &str, words: &[u32]) -> Vec<u32> {
    let function = functions::find(name).expect("a function of the table");
    let mut call = (function.start)();
    let mut out = Writer::default();
    for words in words.chunks(function.inputs()) {
        let bytes: Vec<u8> = words.iter().flat_map(|word| word.to_le_bytes()).collect();
        call(&mut Reader::new(&bytes), &mut out);
    }
    out.bytes.chunks(4).map(|b| u32::from_le_bytes([b[0], b[1], b[2], b[3]])).collect()
}

fn call_floats(name: &str, floats: &[f32]) -> Vec<u32> {
    let words: Vec<u32> = floats.iter().map(|value| value.to_bits()).collect();
    call(name, &words)
}

/// The answers to whole records, one after the other.
fn fly(records: &[Vec<u8>]) -> Vec<Vec<u8>> {
    let mut craft = Craft::default();
    let answer = |record: &Vec<u8>| {
        let mut out = Writer::default();
        craft.answer(record[0], &record[1..]).write(&mut out);
        out.bytes
    };
    records.iter().map(answer).collect()
}

/// The words of an answer after its kind byte; the flags of a setpoint are left out.
fn answer_words(answer: &[u8]) -> Vec<u32> {
    answer[1..].chunks_exact(4).map(|b| u32::from_le_bytes([b[0], b[1], b[2], b[3]])).collect()
}
