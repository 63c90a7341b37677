//! The worked flights of document 01: the rows W1 to W10, and the flight run by the program.

use super::{Facts, call, call_floats, fly};
use crate::config::{Fields, default_fields};
use crate::encode;
use crate::records::{ABSOLUTE_ATTITUDE, RATE};

pub fn check(facts: &mut Facts) {
    rows_of_functions(facts);
    divider_row(facts);
    altitude_row(facts);
    step_row(facts);
    flight_of_the_program(facts);
}

/// The Rust's defaults with wind fields 0.
fn without_wind() -> Fields {
    let mut fields = default_fields();
    fields[41..].fill(0.0);
    fields
}

fn bits(floats: &[f32]) -> Vec<u32> {
    floats.iter().map(|value| value.to_bits()).collect()
}

fn rows_of_functions(facts: &mut Facts) {
    let nan = f32::NAN;
    let rows: &[(&str, &str, &[f32], &[f32])] = &[
        ("W1", "wrap_angle", &[0.0], &[0.0]),
        ("W2 upright", "tilt_boost", &[1.0, 0.0, 0.0, 0.0], &[1.0]),
        ("W2 over", "tilt_boost", &[0.0, 1.0, 0.0, 0.0], &[0.0]),
        ("W2 NaN", "tilt_boost", &[1.0, nan, 0.0, 0.0], &[1.0]),
        ("W5 far", "shaped_closing_speed", &[5.0, 1.0, 2.0], &[4.0]),
        ("W5 near", "shaped_closing_speed", &[2.0, 1.0, 2.0], &[2.0]),
        ("W5 p 0", "shaped_closing_speed", &[4.0, 0.0, 2.0], &[4.0]),
        ("W7 at 5", "cap_magnitude", &[3.0, 4.0, 5.0], &[3.0, 4.0]),
        ("W7 at 2.5", "cap_magnitude", &[3.0, 4.0, 2.5], &[1.5, 2.0]),
        ("W7 infinity", "cap_magnitude", &[f32::INFINITY, 0.0, 1.0], &[0.0, 0.0]),
        ("W8 from 98", "lowered", &[100.0, 1.0, 98.0, 1.0], &[99.0]),
        ("W8 from 105", "lowered", &[100.0, 1.0, 105.0, 1.0], &[104.0]),
    ];
    for (row, name, floats, expected) in rows {
        facts.same(row, call_floats(name, floats), bits(expected));
    }
    let guarded = call_floats("guard_sink", &[0.5, -3.0, 2.0, 0.25]);
    facts.same("W6 sinking", guarded, vec![1, 0.75_f32.to_bits()]);
    facts.same("W6 at the limit", call_floats("guard_sink", &[0.5, -2.0, 2.0, 0.25]), vec![0, 0]);
    facts.same("W10", call_floats("sqrtf", &[2.0]), vec![0x3FB5_04F3]);
}

/// W3: period 0.02 after a run.
fn divider_row(facts: &mut Facts) {
    let period = 0.02_f32.to_bits();
    let call_at = |dt: f32, calls: usize| -> Vec<u32> {
        let mut words = vec![1, dt.to_bits(), period];
        (0..calls).for_each(|_| words.extend([0, dt.to_bits(), period]));
        let out = call("rate_divider", &words);
        out[out.len() - 4..][..2].to_vec()
    };
    facts.same("W3 at 1/64", call_at(1.0 / 64.0, 1), vec![1, (1.0_f32 / 64.0).to_bits()]);
    facts.same("W3 at 1/128, first", call_at(1.0 / 128.0, 1), vec![0, 0]);
    facts.same("W3 at 1/128, second", call_at(1.0 / 128.0, 2), vec![0, 0]);
    facts.same("W3 at 1/128, third", call_at(1.0 / 128.0, 3), vec![1, (3.0_f32 / 128.0).to_bits()]);
}

/// W4: a NaN altitude target gives hover and leaves the integral.
fn altitude_row(facts: &mut Facts) {
    let controller_call = |target_m: f32| -> Vec<u32> {
        let mut words = vec![0];
        words.extend(bits(&default_fields()[..6]));
        words.extend(bits(&[0.5, target_m, 0.0, 1.0, 0.0, 1.0, 0.0, 0.0, 0.0]));
        words
    };
    let mut words = controller_call(1.5);
    words.extend(controller_call(f32::NAN));
    let out = call("altitude", &words);
    facts.same("W4 integral", out[1], 0.25_f32.to_bits());
    facts.same("W4", out[2..].to_vec(), vec![0.5_f32.to_bits(), out[1]]);
}

/// W9: the time steps at the limits, and the floats just outside.
fn step_row(facts: &mut Facts) {
    let answer_to = |bits: u32| {
        let call = encode::call(ABSOLUTE_ATTITUDE, f32::from_bits(bits), &[0.0; 15], &[0.0; 4]);
        fly(&[encode::configure(&without_wind()), call])[1][..2].to_vec()
    };
    let (least, most) = ((1.0_f32 / 4096.0).to_bits(), 1.0_f32.to_bits());
    for (bits, accepted) in [(least, true), (most, true), (least - 1, false), (most + 1, false)] {
        let answer = answer_to(bits);
        facts.same("W9", answer, if accepted { vec![1, 0] } else { vec![3, 2] });
    }
}

fn flight_of_the_program(facts: &mut Facts) {
    let state = [0.0; 15];
    let flight = [
        encode::configure(&without_wind()),
        encode::prime(&state),
        encode::call(ABSOLUTE_ATTITUDE, 0.5, &state, &[0.0, 0.0, 0.0, 0.5]),
        vec![RATE],
    ];
    let mut expected = vec![4, 4, 1];
    expected.extend([0; 12]);
    expected.extend([0, 0, 0, 0x3F, 0, 3, 4, 0]);
    facts.same("the worked flight", fly(&flight).concat(), expected);
}
