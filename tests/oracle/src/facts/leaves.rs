//! Results of libm, zeros that clamp keeps, and the range of wrapped angles.

use core::f32::consts::PI;

use stable_flight::wrap_angle;

use super::{Facts, call, call_floats};
use crate::words::NAN_BITS;

pub fn check(facts: &mut Facts, every: bool) {
    libm_table(facts);
    zeros(facts);
    wraps(facts, every);
    divider_sticks(facts);
}

fn libm_table(facts: &mut Facts) {
    let arguments = [0.5, 1.0, PI, 100.0, 1024.0];
    let rows: [(&str, [u32; 5]); 3] = [
        ("sinf", [0x3EF57744, 0x3F576AA4, 0xB3BBBD2E, 0xBF01A12E, 0xBE225693]),
        ("cosf", [0x3F60A940, 0x3F0A5140, 0xBF800000, 0x3F5CC0EE, 0x3F7CC335]),
        ("atanf", [0x3EED6338, 0x3F490FDB, 0x3FA19DC5, 0x3FC7C82F, 0x3FC8EFDB]),
    ];
    for (name, expected) in rows {
        facts.same(name, call_floats(name, &arguments), expected.to_vec());
    }
    let pairs = [3.0, 4.0, -5.0, 12.0, 1.0, -1.0, 0.0, -0.0, -0.0, -0.0, 1e-30, 1e30];
    let expected = [0x3F24BC7D, 0xBECA2210, 0x4016CBE4, 0x40490FDB, 0xC0490FDB, 0];
    facts.same("atan2f", call_floats("atan2f", &pairs), expected.to_vec());
    facts.same("sqrtf of 2", call_floats("sqrtf", &[2.0]), vec![0x3FB504F3]);
}

fn zeros(facts: &mut Facts) {
    let clamped = call_floats("clamp", &[-0.0, 0.0, 1.0]);
    facts.same("clamp keeps -0", clamped, vec![0x8000_0000]);
    facts.same("saturated -0", call_floats("saturate_throttle", &[-0.0]), vec![0x8000_0000]);
    facts.same("sign of -0", call_floats("signum", &[-0.0]), vec![0xBF80_0000]);
    facts.same("clamped NaN", call_floats("clamp", &[f32::NAN, 0.0, 1.0]), vec![NAN_BITS]);
}

/// Wrapped angles lie from -pi to the second float below pi, and wrapping again changes nothing.
fn wraps(facts: &mut Facts, every: bool) {
    facts.same("wrap of -0", wrap_angle(-0.0).to_bits(), 0);
    facts.same("wrap of 1", wrap_angle(1.0).to_bits(), 0x3F80_0002);
    facts.same("wrap of pi", wrap_angle(PI).to_bits(), 0xC049_0FDB);
    let (mut low, mut high, mut changed) = (f32::INFINITY, f32::NEG_INFINITY, 0);
    // All patterns, or one in 997, and in any case those from 2 to 8 of both signs.
    let sample = (0..=u32::MAX).step_by(if every { 1 } else { 997 });
    let small = (0x4000_0000..0x4100_0000_u32).flat_map(|bits| [bits, bits | 0x8000_0000]);
    for bits in sample.chain(small) {
        let wrapped = wrap_angle(f32::from_bits(bits));
        // Comparisons are false for NaN, which an angle that is not finite gives.
        low = low.min(wrapped);
        high = high.max(wrapped);
        changed +=
            u32::from(wrap_angle(wrapped).to_bits() != wrapped.to_bits() && !wrapped.is_nan());
    }
    facts.same("least wrapped angle", low.to_bits(), 0xC049_0FDB);
    facts.same("largest wrapped angle", high.to_bits(), 0x4049_0FD9);
    facts.same("angles that a second wrap changes", changed, 0);
}

/// A divider that never runs ends at a step of 16,777,216 s.
fn divider_sticks(facts: &mut Facts) {
    let mut divider = stable_flight::testing::OpenRateDivider::default();
    divider.ran();
    let mut step = None;
    for _ in 0..(1 << 24) + 1000 {
        step = divider.due(1.0, 0.02);
    }
    facts.same("step of a stuck divider", step, Some(16_777_216.0));
    let once = call("rate_divider", &[0, 1.0_f32.to_bits(), 0]);
    facts.same("first call of a divider", once, vec![1, 0x3F80_0000, 0, 0]);
}
