//! The flights and the unchanged oracle's answers to them, as files.

use std::fs;
use std::path::{Path, PathBuf};

use oracle_parts::craft::Craft;
use oracle_parts::generate::flights::{Flights, KINDS};
use oracle_parts::records::{self, Answer, Refusal};
use oracle_parts::words::Writer;

use crate::edges;

/// The kinds in the order in which they are flown, those that tell most versions first.
const ORDER: [&str; 11] =
    ["grid", "special", "tame", "any", "wide", "steps", "mixed", "refused", "long", "cut", "damaged"];

/// Kinds whose files end early, and how many of their files are flown.
const SHORT_KINDS: [&str; 2] = ["cut", "damaged"];
const SHORT_FILES: u64 = 50;

/// The files of another kind, whose seeds are 1, 2 and 3 as in tests/flights/run.
const FILES: u64 = 3;

/// Of the first file of such a kind, the records that every version flies at first.
const FIRST_RECORDS: u64 = 12_000;

/// Files without their ending: one of the flight, one of the answers. The name is `generate flights`' kind, seed and
/// records, or `edge` for the flight of edges.rs.
pub struct Recorded {
    /// What every version flies at first.
    pub first: Vec<PathBuf>,
    /// What a version flies then that was not told apart.
    pub then: Vec<PathBuf>,
    pub records: u64,
}

/// Makes the flights with at least `records` records in `folder`.
pub fn make(folder: &Path, records: u64) -> Result<Recorded, String> {
    fs::create_dir_all(folder).map_err(|error| format!("{}: {error}", folder.display()))?;
    let mut recorded = Recorded { first: Vec::new(), then: Vec::new(), records: 0 };
    let share = records.div_ceil((ORDER.len() - SHORT_KINDS.len()) as u64 * FILES);
    for kind in ORDER {
        if SHORT_KINDS.contains(&kind) {
            for seed in 1..=SHORT_FILES {
                let records = short_records(seed);
                recorded.first.push(generate(folder, kind, seed, records)?);
                recorded.records += records;
            }
            continue;
        }
        recorded.first.push(generate(folder, kind, 1, FIRST_RECORDS.min(share))?);
        for seed in 1..=FILES {
            recorded.then.push(generate(folder, kind, seed, share)?);
        }
        recorded.records += FILES * share;
    }
    let edge = edges::kept_pitch();
    recorded.records += edge.len() as u64;
    recorded.first.push(write(&folder.join("edge"), &edge)?);
    Ok(recorded)
}

/// The records of a file that ends early, as in tests/flights/run.
fn short_records(seed: u64) -> u64 {
    5 + seed * 37 % 196
}

/// Writes `generate flights SEED RECORDS KIND` and the oracle's answers to it.
fn generate(folder: &Path, name: &str, seed: u64, records: u64) -> Result<PathBuf, String> {
    let kind = KINDS.iter().find(|(known, _)| *known == name).ok_or_else(|| format!("there is no kind {name}"))?.1;
    let mut flights = Flights::new(seed, kind);
    let flight: Vec<Vec<u8>> = (0..records).rev().map(|left| flights.next_record(left == 0)).collect();
    write(&folder.join(format!("{name}-{seed}-{records}")), &flight)
}

/// Writes a flight's records and the oracle's answers to them.
fn write(base: &Path, flight: &[Vec<u8>]) -> Result<PathBuf, String> {
    let mut craft = Craft::default();
    let mut answers = Writer::default();
    for record in flight {
        answer(&mut craft, record).write(&mut answers);
    }
    for (end, bytes) in [("flight", &flight.concat()), ("answers", &answers.bytes)] {
        let path = base.with_extension(end);
        fs::write(&path, bytes).map_err(|error| format!("{}: {error}", path.display()))?;
    }
    Ok(base.into())
}

fn answer(craft: &mut Craft, record: &[u8]) -> Answer {
    match records::body_length(record[0]) {
        None => Answer::Refused(Refusal::Kind),
        Some(length) if record.len() - 1 < length => Answer::Refused(Refusal::Cut),
        Some(length) => craft.answer(record[0], &record[1..][..length]),
    }
}
