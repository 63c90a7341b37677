//! What each field of a configuration does, by flights that show it: a fact or more for each of the 50. The numbers are
//! worked out by hand from the Rust's formulas.

use crate::facts::{
    AGAINST, ALONG_X, ALONG_Y, ANSWER, ATTITUDE, Call, EAST, EAST_TURNING_RIGHT, EIGHTH, Fact, GOING_NORTH, LAND,
    PUSHED, PUSHED_EAST, PUSHED_NORTH, READING, STICKS, STILL, with,
};
use crate::flight::{Named, WAYPOINT};

const HIGHER: Call = (WAYPOINT, &[("altitude", 1.0)]);
const A_BIT_HIGHER: Call = (WAYPOINT, &[("T", 0.5), ("altitude", 0.5)]);
const FAR_BELOW: Call = (WAYPOINT, &[("T", 1.0), ("altitude", -100.0)]);
const CLIMBING: Call = (WAYPOINT, &[("T", 1.0), ("altitude", -100.0), ("velocity_mps.z", 2.0)]);
const AHEAD: Call = (WAYPOINT, &[("position x", 1.0)]);
const FAR_AHEAD: Call = (WAYPOINT, &[("T", 0.5), ("position x", 10.0)]);
const PASSING: Call = (WAYPOINT, &[("T", 0.5), ("mark of velocity", 1.0), ("velocity x", 1.0)]);
const TURNED: Call = (WAYPOINT, &[("T", 1.0), ("mark of heading", 1.0), ("heading", 1.0)]);
const ON_STATION: Call = (WAYPOINT, &[("T", 1.0)]);
const ON_STATION_PUSHED_NORTH: Call = (WAYPOINT, &[("T", 0.25), ("position_m.z", 2.0), ("acceleration_mps2.x", 0.6)]);
pub const LEANT: Call = (STICKS, &[("throttle", 0.5), ("attitude.w", EIGHTH.0), ("attitude.i", EIGHTH.1)]);
const LEANT_MORE_THRUST: Call = (STICKS, &[("throttle", 0.7), ("attitude.w", EIGHTH.0), ("attitude.i", EIGHTH.1)]);
pub const SINKING: Call = (ATTITUDE, &[("thrust", 0.5), ("velocity_mps.z", -3.0)]);
const RISING: Call = (ATTITUDE, &[("T", 0.25), ("position_m.z", 2.0), ("velocity_mps.z", 2.0)]);

pub const LOOPS: &[Fact] = &[
    with(&[("altitude.gains.p", 3.0)], &[HIGHER], "thrust", 0.65296),
    with(&[("altitude.gains.i", 2.0)], &[A_BIT_HIGHER], "thrust", 0.56373),
    with(&[("altitude.gains.d", 1.0)], &[(WAYPOINT, &[("velocity_mps.z", -1.0)])], "thrust", 0.55099),
    with(&[("altitude.gains.i", 2.0), ("altitude.max_integral", 0.1)], &[A_BIT_HIGHER], "thrust", 0.54844),
    with(&[("altitude.hover_thrust", 0.4)], &[(WAYPOINT, &[])], "thrust", 0.4),
    with(&[("altitude.gains.i", 2.0), ("altitude.integration_band_m", 0.4)], &[A_BIT_HIGHER], "thrust", 0.53824),
    with(&[("lateral.position_p", 1.0)], &[AHEAD], "pitch", -AGAINST),
    with(&[("lateral.velocity.p", 0.63)], &[PASSING], "pitch", -0.08444),
    with(&[("lateral.velocity.i", 2.0)], &[PASSING], "pitch", -0.2265),
    with(&[("lateral.velocity.d", 1.0)], &[(WAYPOINT, &[("T", 0.5)]), SLOWING], "pitch", 0.17461),
    with(&[("lateral.velocity.i", 2.0), ("lateral.max_integral", 0.1)], &[PASSING], "pitch", -0.14779),
    with(&[("lateral.max_accel_mps2", 1.0)], &[FAR_AHEAD], "pitch", -0.17461),
    with(&[("lateral.brake_mps2", 1.0)], &[(WAYPOINT, &[("position x", 6.0)])], "pitch", -0.35017),
    with(
        &[("lateral.max_accel_mps2", 4.0), ("lateral.braking_share", 0.1), ("max_tilt_rad", 1.5)],
        &[(WAYPOINT, &[("T", 1.0), ("position x", 10.0)])],
        "pitch",
        -0.63441,
    ),
];

const SLOWING: Call = (WAYPOINT, &[("T", 0.5), ("velocity_mps.x", 0.5)]);

/// The wind that shows is 1.946 m/s toward the east, and its direction is not known well.
const LEAST: (&str, f32) = ("wind_heading_min_mps", 1.0);
const UNSURE: (&str, f32) = ("wind_heading_max_sd_rad", 1.0);
const WINGTIP: &Named = &[ALONG_X, ALONG_Y, LEAST, UNSURE];

pub const GUIDANCE: &[Fact] = &[
    // The tilt toward the first point is held.
    with(&[("navigation_period_s", 10.0)], &[AHEAD, (WAYPOINT, &[("position x", -1.0)])], "pitch", -0.06447),
    with(&[("max_stick_angles_rad.x", 1.0)], &[(STICKS, &[("roll", 0.5)])], "roll", 0.5),
    with(&[("max_stick_angles_rad.y", 1.0)], &[(STICKS, &[("pitch", 0.5)])], "pitch", 0.5),
    with(&[("stick_yaw_rate_radps", 2.0)], &[(STICKS, &[("T", 0.5), ("yaw", 1.0)])], "heading", 1.0),
    with(&[("idle_throttle", 0.6), ("thrust.min_thrust", 0.7)], &[(ATTITUDE, &[("thrust", 0.6)])], "thrust", 0.6),
    with(&[("max_tilt_rad", 0.2)], &[FAR_AHEAD], "pitch", -0.2),
    with(&[("max_descent_mps", 0.5)], &[FAR_BELOW], "thrust", 0.40568),
    with(&[("descent_accel_mps2", 0.5)], &[(WAYPOINT, &[("T", 0.5), ("altitude", -100.0)])], "thrust", 0.46431),
    with(&[("climb_decel_mps2", 1.0)], &[CLIMBING], "thrust", 0.47451),
    with(&[("altitude_leash_m", 0.25)], &[FAR_BELOW], "thrust", 0.37636),
    with(&[("land_speed_mps", 0.5)], &[(LAND, &[("T", 1.0)])], "thrust", 0.40568),
    with(&[("waypoint_yaw_radps", 0.5)], &[EAST], "heading", 0.5),
    with(&[("waypoint_yaw_radps", 0.0)], &[EAST], "heading", 0.0),
    with(&[("heading_rate_radps", 0.5)], &[TURNED], "heading", 0.5),
    with(&[("waypoint_yaw_min_leg_m", 200.0)], &[EAST], "heading", 0.0),
    with(&[("heading_yield_rad", 3.0)], &[EAST; 3], "heading", 1.5708),
    with(&[("heading_yield_rate_radps", 1.0)], &[EAST_TURNING_RIGHT; 3], "heading", 0.0),
    with(&[("heading_yield_s", 2.0)], &[EAST; 3], "heading", 1.5708),
    with(&[("heading_yield_s", 0.0)], &[EAST; 9], "heading", 1.5708),
    // A wingtip into the east wind: the nose 80° from where it comes from, on the nearer side.
    with(WINGTIP, &[PUSHED_EAST, ON_STATION], "heading", -0.17453),
    with(&[ALONG_X, ALONG_Y, UNSURE, ("wind_heading_min_mps", 2.0)], &[PUSHED_EAST, ON_STATION], "heading", 0.0),
    with(
        &[ALONG_X, ALONG_Y, LEAST, UNSURE, ("wind_heading_from_wind_rad", 1.0)],
        &[PUSHED_EAST, ON_STATION],
        "heading",
        -0.5708,
    ),
    with(&[ALONG_X, ALONG_Y, LEAST], &[PUSHED_EAST, ON_STATION], "heading", 0.0),
    with(WINGTIP, &[PUSHED_EAST, ON_STATION, ON_STATION_PUSHED_NORTH], "heading", -0.43633),
    with(
        &[ALONG_X, ALONG_Y, LEAST, UNSURE, ("wind_heading_deadband_rad", 3.0)],
        &[PUSHED_EAST, ON_STATION, ON_STATION_PUSHED_NORTH],
        "heading",
        -0.17453,
    ),
    with(&[ALONG_X, ("airborne_height_m", 2.0)], &[STILL, READING], ANSWER, 5.0),
    with(&[ALONG_X, ("feedforward_hold_band_mps", 0.0)], &[AHEAD], "pitch", -0.07969),
];

pub const THRUST: &[Fact] = &[
    with(&[("thrust.min_thrust", 0.6)], &[(ATTITUDE, &[("thrust", 0.3)])], "thrust", 0.6),
    with(&[("thrust.min_thrust", 0.6)], &[(ATTITUDE, &[("thrust", 0.05)])], "thrust", 0.05),
    with(&[("thrust.min_thrust", 0.6)], &[(WAYPOINT, &[])], "thrust", 0.6),
    with(&[("thrust.sink_limit_mps", 1.0), ("thrust.sink_gain", 0.1)], &[SINKING], "thrust", 0.7),
    with(&[("thrust.sink_limit_mps", 2.0), ("thrust.sink_gain", 0.1)], &[SINKING], "thrust", 0.6),
    with(&[("thrust.sink_limit_mps", 0.0), ("thrust.sink_gain", 0.1)], &[SINKING], "thrust", 0.5),
    with(&[("thrust.sink_limit_mps", 1.0), ("thrust.sink_gain", 0.2)], &[SINKING], "thrust", 0.9),
    with(&[("thrust.max_boost_thrust", 0.6)], &[LEANT], "thrust", 0.6),
    with(&[("thrust.max_boost_thrust", 0.6)], &[LEANT_MORE_THRUST], "thrust", 0.7),
];

pub const WIND: &[Fact] = &[
    with(&[("wind.ballistic_kgpm2.x", 0.6125)], &[PUSHED_NORTH, READING], "velocity x", 0.7738),
    with(&[("wind.ballistic_kgpm2.x", 0.6125)], &[PUSHED_EAST, READING], "velocity y", 0.0),
    with(&[("wind.ballistic_kgpm2.y", 0.6125)], &[PUSHED_EAST, READING], "velocity y", 0.7738),
    with(&[("wind.momentum_per_s.x", 0.3)], &[PUSHED_NORTH, READING], "velocity x", PUSHED),
    with(&[("wind.momentum_per_s.x", 0.3)], &[PUSHED_EAST, READING], "velocity y", 0.0),
    with(&[("wind.momentum_per_s.y", 0.3)], &[PUSHED_EAST, READING], "velocity y", PUSHED),
    with(&[ALONG_X, ("wind.force_noise_mps2", 5.0)], &[PUSHED_NORTH, READING], "velocity x", 0.52942),
    with(&[ALONG_X, ("wind.process_noise_mps_per_rt_s", 10.0)], &[GOING_NORTH, READING], "covariance 11", 125.0),
    with(&[ALONG_X, ("wind.initial_sd_mps", 1.0)], &[PUSHED_NORTH, READING], "velocity x", 0.53039),
    with(&[ALONG_X, ("wind.gate_sigma", 0.1)], &[PUSHED_NORTH, READING], "velocity x", 0.0),
    with(&[ALONG_X], &[RISING, READING], ANSWER, 5.0),
    with(&[ALONG_X, ("wind.max_axial_speed_mps", 5.0)], &[RISING, READING], ANSWER, 6.0),
];
