//! The functions that the port has, and calls of them.

use oracle_parts::functions::{self, Call, Function};
use oracle_parts::generate::inputs::{Inputs, KINDS, Kind};
use oracle_parts::words::{Reader, Writer};

/// The number by which crates/replay knows a function, and its name in the oracle's table.
const PORTED: [(u8, &str); 36] = [
    (0, "sqrtf"),
    (1, "sinf"),
    (2, "cosf"),
    (3, "atanf"),
    (4, "atan2f"),
    (5, "abs"),
    (6, "signum"),
    (7, "min"),
    (8, "max"),
    (9, "rem"),
    (10, "is_finite"),
    (11, "is_nan"),
    (12, "clamp"),
    (13, "narrow"),
    (20, "wrap_angle"),
    (21, "cap_magnitude"),
    (22, "saturate_unit"),
    (23, "saturate_throttle"),
    (24, "saturate_symmetric"),
    (25, "clamp_symmetric"),
    (26, "limit_or_zero"),
    (27, "neu_to_ned"),
    (28, "tilt_boost"),
    (29, "guard_sink"),
    (30, "shaped_closing_speed"),
    (40, "rate_divider"),
    (41, "derivative"),
    (42, "altitude"),
    (43, "lateral"),
    (60, "drag_mps2"),
    (61, "sd_along_mps"),
    (62, "wind"),
    (80, "wind_heading"),
    (81, "leg_heading"),
    (100, "tilt_for_acceleration"),
    (101, "drag_feedforward_mps2"),
];

/// The seed of every list of calls.
pub const SEED: u64 = 1;

/// A function of both sides.
#[derive(Clone, Copy)]
pub struct Ported {
    pub number: u8,
    pub function: &'static Function,
}

/// Every function that the port has.
pub fn ported() -> impl Iterator<Item = Ported> {
    PORTED.iter().map(|&(number, name)| {
        let function = functions::find(name).unwrap_or_else(|| panic!("the oracle has no '{name}'"));
        Ported { number, function }
    })
}

/// The kinds of inputs that every function has, with their names.
pub fn kinds() -> impl Iterator<Item = (&'static str, Kind)> {
    KINDS.into_iter().filter(|(_, kind)| *kind != Kind::Counting)
}

impl Ported {
    pub fn inputs(self, kind: Kind) -> Inputs {
        Inputs::new(self.function, SEED, kind)
    }

    /// Bytes of an answer.
    pub fn answer_bytes(self) -> usize {
        4 * self.function.outputs
    }

    /// Bytes of an entry: the number, then the words.
    pub fn entry_bytes(self) -> usize {
        1 + 4 * self.function.inputs()
    }

    /// Appends a call as crates/replay reads it.
    pub fn put_entry(self, words: &[u32], entries: &mut Vec<u8>) {
        entries.push(self.number);
        words.iter().for_each(|word| entries.extend_from_slice(&word.to_le_bytes()));
    }
}

/// Appends the oracle's answer to an entry.
pub fn answer(call: &mut Call, entry: &[u8], answers: &mut Writer) {
    call(&mut Reader::new(&entry[1..]), answers);
}

/// Whether document 01 leaves the sign of a zero in the answer to an entry open: the zero is what a min or max gives of two
/// zeros. The oracle's README.md names the functions that can show it; `sd_along_mps` takes the max of a number and 0.
pub fn zero_is_open(ported: Ported, entry: &[u8]) -> bool {
    match ported.function.name {
        "min" | "max" => words(&entry[1..]).all(is_zero),
        "sd_along_mps" => true,
        _ => false,
    }
}

pub fn is_zero(word: u32) -> bool {
    word << 1 == 0
}

pub fn words(bytes: &[u8]) -> impl Iterator<Item = u32> {
    bytes.chunks_exact(4).map(|word| u32::from_le_bytes(word.try_into().expect("four bytes")))
}
