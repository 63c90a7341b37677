//! Flights whose answers a reader may not expect.

use stable_flight::WaypointCommand;

use super::{Facts, answer_words, fly};
use crate::config::{Fields, default_fields};
use crate::encode::{self, State, Waypoint};
use crate::records::{ABSOLUTE_ATTITUDE, ATTITUDE, WIND};
use crate::words::NAN_BITS;

const INFINITY_BITS: u32 = 0x7F80_0000;

pub fn check(facts: &mut Facts) {
    kept_zero(facts);
    wind_of_nan(facts);
    covariance_of_infinity(facts);
    wind_of_infinity(facts);
    infinite_heading(facts);
    nan_thrust(facts);
    let command = WaypointCommand::default();
    facts.same("a landing's velocity", command.velocity_mps, None);
    facts.same("a landing's cruise speed", command.cruise_speed_mps, 0.0);
}

/// The Rust's defaults with some fields replaced.
fn with(replaced: &[(usize, f32)]) -> Fields {
    let mut fields = default_fields();
    replaced.iter().for_each(|(number, value)| fields[number - 1] = *value);
    fields
}

/// Upright at height `z`, all else 0.
fn upright(z: f32) -> State {
    let mut state = [0.0; 15];
    (state[2], state[9]) = (z, 1.0);
    state
}

fn level(dt: f32, state: &State) -> Vec<u8> {
    encode::call(ABSOLUTE_ATTITUDE, dt, state, &[0.0, 0.0, 0.0, 0.5])
}

/// A thrust of -0 comes out as -0.
fn kept_zero(facts: &mut Facts) {
    let state = upright(0.0);
    let calls = [
        encode::call(ATTITUDE, 0.5, &state, &[-0.0, 0.0, 0.0, 0.0]),
        encode::call(ABSOLUTE_ATTITUDE, 0.5, &state, &[0.0, 0.0, 0.0, -0.0]),
    ];
    for call in calls {
        let answers = fly(&[encode::configure(&with(&[])), call]);
        facts.same("thrust of -0", answer_words(&answers[1])[3], 0x8000_0000);
    }
}

/// Document 01 lets noises be 0, and then the wind can become NaN.
fn wind_of_nan(facts: &mut Facts) {
    let fields = with(&[(44, 0.3), (45, 0.3), (46, 0.0), (47, 0.0), (48, 0.0)]);
    let flight = [
        encode::configure(&fields),
        encode::prime(&upright(0.0)),
        level(1.0, &upright(2.0)),
        vec![WIND],
    ];
    facts.same("wind of NaN", answer_words(&fly(&flight)[3]), vec![NAN_BITS; 6]);
}

/// A variance that overflows is multiplied by 0 off the diagonal.
fn covariance_of_infinity(facts: &mut Facts) {
    for field in [47, 48] {
        let flight = [
            encode::configure(&with(&[(44, 0.3), (45, 0.3), (field, 1e20)])),
            encode::prime(&upright(0.0)),
            level(1.0, &upright(2.0)),
            vec![WIND],
        ];
        let covariance = answer_words(&fly(&flight)[3])[2..].to_vec();
        let expected = vec![INFINITY_BITS, NAN_BITS, NAN_BITS, INFINITY_BITS];
        facts.same("covariance of infinity", covariance, expected);
    }
}

/// Two forces whose sum overflows pass a gate whose square overflows.
fn wind_of_infinity(facts: &mut Facts) {
    let mut pushed = upright(2.0);
    pushed[6] = 3e38;
    let flight = [
        encode::configure(&with(&[(44, 0.3), (45, 0.3), (49, 1e20)])),
        encode::prime(&upright(0.0)),
        level(0.125, &pushed),
        level(0.125, &pushed),
        vec![WIND],
        level(1.0, &upright(2.0)),
        vec![WIND],
    ];
    let answers = fly(&flight);
    for answer in [&answers[4], &answers[6]] {
        let velocity = answer_words(answer)[..2].to_vec();
        facts.same("wind of infinity", velocity, vec![INFINITY_BITS, NAN_BITS]);
    }
}

/// A priming stores its heading as given, and nothing finite comes to replace it here.
fn infinite_heading(facts: &mut Facts) {
    let mut state = upright(0.0);
    state[14] = f32::INFINITY;
    let flight = [
        encode::configure(&with(&[])),
        encode::prime(&state),
        encode::call(ABSOLUTE_ATTITUDE, 0.5, &state, &[0.0, 0.0, f32::INFINITY, 0.5]),
    ];
    facts.same("infinite heading", answer_words(&fly(&flight)[2])[2], INFINITY_BITS);
}

/// Gains whose products overflow to both infinities.
fn nan_thrust(facts: &mut Facts) {
    let mut state = upright(3.0);
    state[5] = 5.0;
    let waypoint = Waypoint {
        position_m: [0.0, 0.0],
        velocity_mark: 0,
        velocity_mps: [0.0, 0.0],
        altitude_m: 5.0,
        cruise_speed_mps: 0.0,
        heading_mark: 0,
        heading_rad: 0.0,
    };
    let flight = [
        encode::configure(&with(&[(1, 3e38), (3, 3e38)])),
        encode::waypoint(0.5, &state, &waypoint),
    ];
    facts.same("thrust of NaN", answer_words(&fly(&flight)[1])[3], NAN_BITS);
}
