//! What is done to single records: words replaced, marks changed, refusals provoked, bits flipped.

use super::random::Random;
use super::values::{self, SOURCES, Source};
use crate::config::{FIELDS, first_broken};
use crate::encode;
use crate::records::{self, MAX_STEP_S, MIN_STEP_S};

/// Where the words of a body are: one byte marks of a waypoint stand between them.
fn word_at(record: &[u8], index: usize) -> usize {
    let marks = match (record[0], index) {
        (records::WAYPOINT, 18..=21) => 1,
        (records::WAYPOINT, 22..) => 2,
        _ => 0,
    };
    1 + 4 * index + marks
}

fn words_of(record: &[u8]) -> usize {
    (record.len() - 1) / 4
}

pub fn set_word(record: &mut [u8], index: usize, bits: u32) {
    let at = word_at(record, index);
    record[at..at + 4].copy_from_slice(&bits.to_le_bytes());
}

/// The index of the state's heading, and whether the first word is a time step.
fn layout(record: &[u8]) -> (usize, bool) {
    if record[0] == records::PRIME { (14, false) } else { (15, true) }
}

/// Draws a word anew. The time step and the heading stay legal 31 times out of 32.
fn redraw(random: &mut Random, record: &mut [u8], index: usize, source: Source) {
    let (heading, has_step) = layout(record);
    let stays_legal = !random.chance(1, 32);
    let value = if has_step && index == 0 && stays_legal {
        values::step(random, source)
    } else if index == heading && stays_legal {
        values::heading(random, source)
    } else {
        values::float(random, source, 10.0)
    };
    set_word(record, index, value.to_bits());
}

pub fn replace_some(random: &mut Random, record: &mut [u8], source: Source, words: usize) {
    for _ in 0..words {
        let index = random.below(words_of(record));
        redraw(random, record, index, source);
    }
}

/// Every word anew, one in sixteen of them from another source, and some marks changed.
pub fn replace_all(random: &mut Random, record: &mut [u8], source: Source) {
    for index in 0..words_of(record) {
        let source = if random.chance(1, 16) { random.pick(&SOURCES) } else { source };
        redraw(random, record, index, source);
    }
    if record[0] == records::WAYPOINT && random.chance(1, 2) {
        let (velocity_mark, heading_mark) = waypoint_marks(record);
        record[velocity_mark] = random.below(2) as u8;
        record[heading_mark] = random.below(2) as u8;
    }
}

fn waypoint_marks(record: &[u8]) -> (usize, usize) {
    (word_at(record, 18) - 1, word_at(record, 22) - 1)
}

/// A time step at a limit, beside it, or of no use.
pub fn edge_step(random: &mut Random) -> f32 {
    match random.below(12) {
        0..=3 => MIN_STEP_S,
        4 => MAX_STEP_S,
        5 => values::neighbour(random, MIN_STEP_S),
        6 => values::neighbour(random, MAX_STEP_S),
        7 => values::special(random),
        8 => random.between(MIN_STEP_S, 2.0 * MIN_STEP_S),
        _ => values::tame_step(random),
    }
}

/// A record that is refused, made from a good one: often for more than one reason.
pub fn refused(random: &mut Random, mut record: Vec<u8>) -> Vec<u8> {
    let (heading, has_step) = layout(&record);
    for _ in 0..1 + random.below(2) {
        match random.below(6) {
            0 => return broken_configuration(random),
            1 => return vec![records::RATE],
            2 if has_step => {
                let step = random.pick(&[
                    0.0,
                    -0.02,
                    1.000_000_1,
                    2.0,
                    0.000_244,
                    f32::NAN,
                    f32::INFINITY,
                ]);
                set_word(&mut record, 0, step.to_bits());
            }
            3 | 4 if record[0] == records::WAYPOINT => {
                let (velocity_mark, heading_mark) = waypoint_marks(&record);
                let at = random.pick(&[velocity_mark, heading_mark]);
                record[at] = random.bits() as u8;
            }
            _ => {
                let value =
                    random.pick(&[1_024.000_1_f32, -1_024.000_1, 1e6, -3e38, 1024.0, -1024.0]);
                set_word(&mut record, heading, value.to_bits());
            }
        }
    }
    record
}

/// A configuration with one to three fields of any kind of value, at least one of them broken.
fn broken_configuration(random: &mut Random) -> Vec<u8> {
    let mut fields = values::fields(random, Source::Tame, 0, 1);
    let replaced = [(); 3].map(|_| random.below(FIELDS));
    let replaced = &replaced[random.below(3)..];
    while first_broken(&fields).is_none() {
        for index in replaced {
            let source = random.pick(&SOURCES);
            fields[*index] = values::float(random, source, 2.0);
        }
        if replaced.iter().all(|index| (7..10).contains(index)) {
            // The velocity gains take anything.
            fields[0] = -1.0;
        }
    }
    encode::configure(&fields)
}

/// One to four bits of the body flipped.
pub fn flipped(random: &mut Random, mut record: Vec<u8>) -> Vec<u8> {
    if record.len() > 1 {
        for _ in 0..1 + random.below(4) {
            let at = 1 + random.below(record.len() - 1);
            record[at] ^= 1 << random.below(8);
        }
    }
    record
}
