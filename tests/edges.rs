//! Flights that drawn numbers do not lead to.

use oracle_parts::config::{Fields, default_fields};
use oracle_parts::encode::{self, State, Waypoint};

/// Halved, it is 0.
const SMALLEST: f32 = f32::from_bits(1);

const VELOCITY_P: usize = 8;
const VELOCITY_I: usize = 9;
const VELOCITY_D: usize = 10;
const LATERAL_MAX_INTEGRAL: usize = 11;
const MAX_ACCEL: usize = 12;
const NAVIGATION_PERIOD: usize = 15;

/// A pitch of -0 after underflow. The lateral loop runs at the first call and, two seconds later, at the last. Between
/// them the speed asked for to the north falls by SMALLEST, which divided by the two seconds is -0. The terms of p and
/// d and the drag are -0 too, so that the integral's zero decides: clamped to a limit of -0 it is +0, and clamped to
/// one of +0 it would be -0. Pitch is the sum with its sign changed.
pub fn kept_pitch() -> Vec<Vec<u8>> {
    let mut fields: Fields = default_fields();
    let replaced = [
        (VELOCITY_P, 0.0),
        (VELOCITY_I, 1.0),
        (VELOCITY_D, 0.0),
        (LATERAL_MAX_INTEGRAL, -0.0),
        (MAX_ACCEL, 1000.0),
        (NAVIGATION_PERIOD, 2.0),
    ];
    replaced.iter().for_each(|(number, value)| fields[number - 1] = *value);
    let first = fly_at([-SMALLEST, 3.0]);
    vec![encode::configure(&fields), encode::prime(&at_rest()), first.clone(), first, fly_at([-2.0 * SMALLEST, 1.5])]
}

/// Upright, all else 0.
fn at_rest() -> State {
    let mut state = [0.0; 15];
    state[9] = 1.0;
    state
}

/// A second of a waypoint that is reached and is to be passed at this velocity, to the north and to the east.
fn fly_at(velocity_mps: [f32; 2]) -> Vec<u8> {
    let waypoint = Waypoint {
        position_m: [0.0, 0.0],
        velocity_mark: 1,
        velocity_mps,
        altitude_m: 0.0,
        cruise_speed_mps: 0.0,
        heading_mark: 0,
        heading_rad: 0.0,
    };
    encode::waypoint(1.0, &at_rest(), &waypoint)
}
