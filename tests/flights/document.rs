//! Document 01's records and answers: their lengths, the order of the checks and the rule of each field. It shares no
//! code with the oracle, so that a slip in the oracle's reading of the paper shows as a difference.

use std::f32::consts::{FRAC_PI_2, PI};

use crate::mix::mix;

pub const CONFIGURE: u8 = 1;
pub const PRIME: u8 = 2;
pub const ATTITUDE: u8 = 3;
pub const RATE: u8 = 4;
pub const WAYPOINT: u8 = 5;
pub const ABSOLUTE_ATTITUDE: u8 = 6;
pub const LAND: u8 = 7;
pub const ABSOLUTE_RATE: u8 = 8;
pub const WIND: u8 = 9;

/// The numbers of the answers.
pub const SETPOINT: u8 = 1;
pub const BODY_RATE: u8 = 2;
pub const REFUSAL: u8 = 3;
pub const DONE: u8 = 4;
pub const NO_WIND: u8 = 5;
pub const WIND_KNOWN: u8 = 6;

/// The answers after which the program stops: a byte that is no kind, a record that is cut.
pub const REFUSED_KIND: [u8; 3] = [REFUSAL, 5, 0];
pub const REFUSED_CUT: [u8; 3] = [REFUSAL, 6, 0];

/// Where the two marks of a waypoint are in its record.
pub const MARKS: [usize; 2] = [73, 90];

/// The largest finite heading of a state, in radians.
const MAX_HEADING_RAD: f32 = 1024.0;

/// The bytes of a whole record, kind byte included; none for a byte that is no kind.
pub fn record_bytes(kind: u8) -> Option<usize> {
    match kind {
        CONFIGURE => Some(201),
        PRIME => Some(61),
        ATTITUDE | ABSOLUTE_ATTITUDE | ABSOLUTE_RATE => Some(81),
        WAYPOINT => Some(95),
        LAND => Some(73),
        RATE | WIND => Some(1),
        _ => None,
    }
}

/// The bytes of a whole answer, number included; none for a byte that is no number of an answer.
pub fn answer_bytes(number: u8) -> Option<usize> {
    match number {
        SETPOINT | BODY_RATE => Some(18),
        REFUSAL => Some(3),
        DONE | NO_WIND => Some(1),
        WIND_KNOWN => Some(25),
        _ => None,
    }
}

/// What stands at a place of a flight where a record begins.
pub enum Entry<'a> {
    Whole(&'a [u8]),
    /// The kind byte is no kind. Nothing after it is read.
    NoKind,
    /// The flight ends within the record.
    Cut,
}

/// The entries of a flight, as far as the program reads it.
pub fn entries(flight: &[u8]) -> impl Iterator<Item = Entry<'_>> {
    let mut rest = flight;
    std::iter::from_fn(move || {
        let Some(length) = record_bytes(*rest.first()?) else {
            rest = &[];
            return Some(Entry::NoKind);
        };
        let Some((record, after)) = rest.split_at_checked(length) else {
            rest = &[];
            return Some(Entry::Cut);
        };
        rest = after;
        Some(Entry::Whole(record))
    })
}

/// The answers in what a program wrote. What is no whole answer comes out as one piece.
pub fn answers(written: &[u8]) -> impl Iterator<Item = &[u8]> {
    let mut rest = written;
    std::iter::from_fn(move || {
        let length = answer_bytes(*rest.first()?).unwrap_or(rest.len());
        let (answer, after) = rest.split_at(length.min(rest.len()));
        rest = after;
        Some(answer)
    })
}

/// The float at byte `at` of a record.
pub fn float(record: &[u8], at: usize) -> f32 {
    f32::from_le_bytes(record[at..at + 4].try_into().expect("four bytes"))
}

pub fn set_float(record: &mut [u8], at: usize, value: f32) {
    record[at..at + 4].copy_from_slice(&value.to_bits().to_le_bytes());
}

/// Where field `number` of a configure record is.
pub fn field_at(number: usize) -> usize {
    1 + 4 * (number - 1)
}

/// Where the state of a priming or a call is.
pub fn state_at(record: &[u8]) -> usize {
    if record[0] == PRIME { 1 } else { 5 }
}

/// The altitude in the state of a priming or a call, in metres.
pub fn altitude_m(record: &[u8]) -> f32 {
    float(record, state_at(record) + 8)
}

/// The heading in the state of a priming or a call, in radians.
pub fn heading_rad(record: &[u8]) -> f32 {
    float(record, state_at(record) + 56)
}

pub fn is_call(record: &[u8]) -> bool {
    matches!(record[0], ATTITUDE | WAYPOINT | ABSOLUTE_ATTITUDE | LAND | ABSOLUTE_RATE)
}

/// The refusal of a whole record, as an answer; none where it is accepted.
pub fn refusal(record: &[u8], configured: bool) -> Option<[u8; 3]> {
    let (number, field) = match record[0] {
        CONFIGURE => (1, broken_field(record)?),
        _ if !configured => (7, 0),
        RATE => (4, 0),
        WIND => return None,
        WAYPOINT if MARKS.iter().any(|at| record[*at] > 1) => (8, 0),
        PRIME if heading_too_large(record) => (3, 0),
        PRIME => return None,
        _ if !(float(record, 1) >= 1.0 / 4096.0 && float(record, 1) <= 1.0) => (2, 0),
        _ if heading_too_large(record) => (3, 0),
        _ => return None,
    };
    Some([REFUSAL, number, field])
}

fn heading_too_large(record: &[u8]) -> bool {
    let heading_rad = heading_rad(record);
    heading_rad.is_finite() && heading_rad.abs() > MAX_HEADING_RAD
}

/// The lowest field of a configure record that breaks its rule.
fn broken_field(record: &[u8]) -> Option<u8> {
    (1..=50).find(|number| !field_holds(*number, float(record, field_at(*number)))).map(|number| number as u8)
}

/// The rules of document 01 for 1-6, 8-10 and 42-50, and those of the Rust's `validate` for the others.
fn field_holds(number: usize, value: f32) -> bool {
    match number {
        8..=10 => true,
        5 | 14 | 41 => value > 0.0 && value <= 1.0,
        19 | 38 => (0.0..1.0).contains(&value),
        20 => value > 0.0 && value < FRAC_PI_2,
        21..=24 | 27 => value > 0.0 && value.is_finite(),
        25 => value > 0.2 && value.is_finite(),
        33 => (0.0..=PI).contains(&value),
        _ => value >= 0.0 && value.is_finite(),
    }
}

/// What the program has to write for a flight. Refusals, their fields and `done` are document 01's. The numbers of
/// setpoints and winds are taken from `theirs`, the oracle's answers to the same flight, where they have the right kind
/// of answer.
pub fn expected(flight: &[u8], theirs: &[u8]) -> Vec<u8> {
    let mut theirs = answers(theirs);
    let mut written = Vec::new();
    let mut configured = false;
    for entry in entries(flight) {
        let theirs = theirs.next().unwrap_or_default();
        let record = match entry {
            Entry::Whole(record) => record,
            Entry::NoKind => {
                written.extend_from_slice(&REFUSED_KIND);
                continue;
            }
            Entry::Cut => {
                written.extend_from_slice(&REFUSED_CUT);
                continue;
            }
        };
        match refusal(record, configured) {
            Some(refusal) => written.extend_from_slice(&refusal),
            None if record[0] == CONFIGURE || record[0] == PRIME => written.push(DONE),
            None if fits(record[0], theirs) => written.extend_from_slice(theirs),
            None => {}
        }
        configured |= record[0] == CONFIGURE && refusal(record, configured).is_none();
    }
    written
}

/// Whether an answer is of the kind that an accepted call or wind reading gets. Flags have three bits.
fn fits(kind: u8, answer: &[u8]) -> bool {
    let Some((&number, body)) = answer.split_first() else {
        return false;
    };
    let right = match kind {
        WIND => number == NO_WIND || number == WIND_KNOWN,
        ABSOLUTE_RATE => number == BODY_RATE && body.last().is_some_and(|flags| *flags < 8),
        _ => number == SETPOINT && body.last().is_some_and(|flags| *flags < 8),
    };
    right && answer_bytes(number) == Some(answer.len())
}

/// A digest of what was written, carried on from file to file. Equal digests on every machine mean equal bytes.
pub fn digest(before: u64, written: &[u8]) -> u64 {
    let words = written.chunks(8).map(|chunk| {
        let mut word = [0; 8];
        word[..chunk.len()].copy_from_slice(chunk);
        u64::from_le_bytes(word)
    });
    let after = words.fold(before, |digest, word| mix(digest ^ word));
    mix(after ^ written.len() as u64)
}

/// Bytes as text, two hexadecimal digits each.
pub fn hexadecimal(bytes: &[u8]) -> String {
    bytes.iter().map(|byte| format!("{byte:02x}")).collect()
}
