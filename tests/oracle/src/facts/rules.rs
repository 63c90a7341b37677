//! The defaults, and where the rules of document 01 and those of the Rust part.

use std::collections::BTreeSet;

use super::Facts;
use crate::config::{FIELDS, default_fields, field_holds, from_fields, to_fields};

/// The Rust's defaults, fields 1 to 50.
const DEFAULTS: [u32; FIELDS] = [
    0x3FC00000, 0x3E4CCCCD, 0x40000000, 0x40A00000, 0x3F000000, 0x3F800000, // 1-6
    0x3F000000, 0x3FA147AE, 0x3ECCCCCD, 0x00000000, 0x41480000, 0x00000000, // 7-12
    0x00000000, 0x3F333333, // 13-14
    0x3CA3D70A, 0x3F490FDB, 0x3F490FDB, 0x3F800000, 0x3D4CCCCD, 0x3EF14639, // 15-20
    0x40400000, 0x3F800000, 0x40200000, 0x3F800000, 0x3F333333, // 21-25
    0x3F860A92, 0x3F860A92, 0x40400000, 0x3F060A92, 0x3DCCCCCD, 0x3F800000, // 26-31
    0x00000000, 0x3FB2B8C2, 0x3E860A92, 0x3E32B8C2, 0x3F800000, 0x3E99999A, // 32-37
    0x00000000, 0x00000000, 0x00000000, 0x3F800000, // 38-41
    0x00000000, 0x00000000, 0x00000000, 0x00000000, // 42-45
    0x3F000000, 0x3DCCCCCD, 0x41200000, 0x40A00000, 0x3F800000, // 46-50
];

/// Values at the edges of the rules.
const EDGES: [u32; 26] = [
    0x0000_0000,
    0x8000_0000,
    0x0000_0001,
    0x8000_0001,
    0x0080_0000, // around 0
    0x3E4C_CCCC,
    0x3E4C_CCCD,
    0x3E4C_CCCE, // around 0.2
    0x3F00_0000,
    0x3F7F_FFFF,
    0x3F80_0000,
    0x3F80_0001,
    0xBF80_0000, // around 1
    0x3FC9_0FDA,
    0x3FC9_0FDB,
    0x3FC9_0FDC, // around half of pi
    0x4049_0FDA,
    0x4049_0FDB,
    0x4049_0FDC, // around pi
    0x7F7F_FFFF,
    0xFF7F_FFFF,
    0x7F80_0000,
    0xFF80_0000, // the largest and infinity
    0x7F80_0001,
    0x7FC0_0000,
    0xFFC0_0000, // NaN
];

pub fn check(facts: &mut Facts) {
    facts.same("the defaults", default_fields().map(f32::to_bits), DEFAULTS);
    let back = to_fields(&from_fields(&std::array::from_fn(|index| index as f32)));
    facts.same("fields and back", back, std::array::from_fn(|index| index as f32));
    rules_as_written(facts);
    differences_from_the_rust(facts);
}

/// The rule of each field in the words of document 01 and of the Rust's comments.
fn written_rule(number: usize, value: f32) -> bool {
    let limit = value >= 0.0 && value < f32::INFINITY;
    let positive = value > 0.0 && value < f32::INFINITY;
    match number {
        8..=10 => true,
        5 | 14 | 41 => value > 0.0 && value <= 1.0,
        19 | 38 => value >= 0.0 && value < 1.0,
        20 => value > 0.0 && value < f32::from_bits(0x3FC9_0FDB),
        21..=24 | 27 => positive,
        25 => value > 0.2 && value < f32::INFINITY,
        33 => value >= 0.0 && value <= f32::from_bits(0x4049_0FDB),
        _ => limit,
    }
}

fn rules_as_written(facts: &mut Facts) {
    for number in 1..=FIELDS {
        for bits in EDGES {
            let value = f32::from_bits(bits);
            let what = format!("rule of field {number} at {bits:08X}");
            facts.same(&what, field_holds(number, value), written_rule(number, value));
        }
    }
}

/// The altitude gains, which the Rust does not check, and zeros in five fields.
fn differences_from_the_rust(facts: &mut Facts) {
    let mut found = BTreeSet::new();
    for number in 1..=FIELDS {
        for bits in EDGES {
            let mut fields = default_fields();
            fields[number - 1] = f32::from_bits(bits);
            let rust = from_fields(&fields).validate().is_ok();
            if rust != field_holds(number, fields[number - 1]) {
                found.insert((number, bits, rust));
            }
        }
    }
    let mut expected = BTreeSet::new();
    for number in 1..=3 {
        let broken = EDGES.iter().filter(|bits| !written_rule(1, f32::from_bits(**bits)));
        expected.extend(broken.map(|bits| (number, *bits, true)));
    }
    for number in [6, 46, 48, 49, 50] {
        expected.extend([(number, 0, false), (number, 0x8000_0000, false)]);
    }
    facts.same("where the rules differ", found, expected);
}
