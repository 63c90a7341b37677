//! What README says in sentences beside its tables, of primings, of when the wind is estimated, of thrust at a tilt and
//! of the flags.

use crate::facts::{ALONG_X, ANSWER, ATTITUDE, Call, DRAG, FLAGS, Fact, READING, STICKS, STILL, after, with};
use crate::field_facts::{LEANT, SINKING};
use crate::flight::{PRIME, WAYPOINT};

/// Half of 50° and half of 80°, as parts of a quaternion.
const STEEP: (f32, f32) = (0.906_307_8, 0.422_618_27);
const STEEPER: (f32, f32) = (0.766_044_4, 0.642_787_6);

/// Primings a little and far above the ground that the first one remembered, and at no altitude.
const LITTLE_ABOVE: Call = (PRIME, &[("position_m.z", 0.5)]);
const FAR_ABOVE: Call = (PRIME, &[("position_m.z", 5.0)]);
const NOWHERE: Call = (PRIME, &[("position_m.z", f32::NAN)]);

const LOW: Call = (ATTITUDE, &[("T", 0.25), ("position_m.z", 1.4)]);
const STEEP_AIR: Call =
    (ATTITUDE, &[("T", 0.25), ("position_m.z", 2.0), ("attitude.w", STEEP.0), ("attitude.i", STEEP.1)]);
const NO_SPEED: Call = (ATTITUDE, &[("T", 0.25), ("position_m.z", 2.0), ("velocity_mps.x", f32::NAN)]);

pub const PRIMINGS: &[Fact] = &[
    after(&[(PRIME, &[("heading_rad", 1.0)]), (STICKS, &[])], "heading", 1.0),
    after(&[(PRIME, &[("heading_rad", 4.0)]), (STICKS, &[])], "heading", 4.0 - 6.283_185_5),
    // A heading that is not finite is replaced by the first one that is, the state's or kind 6's.
    after(&[(PRIME, &[("heading_rad", f32::NAN)]), (STICKS, &[("heading_rad", 1.0)])], "heading", 1.0),
    after(&[(PRIME, &[("heading_rad", f32::NAN)]), (ATTITUDE, &[("heading", 1.0)])], "heading", 1.0),
    // The ground is remembered anew from little above it, and not from far above it.
    with(DRAG, &[LOW, READING], ANSWER, 6.0),
    with(DRAG, &[LITTLE_ABOVE, LOW, READING], ANSWER, 5.0),
    with(DRAG, &[FAR_ABOVE, LOW, READING], ANSWER, 6.0),
    with(DRAG, &[NOWHERE, LOW, READING], ANSWER, 5.0),
    with(DRAG, &[NOWHERE, FAR_ABOVE, LOW, READING], ANSWER, 5.0),
    // A priming on the ground forgets the wind, one in the air does not.
    with(DRAG, &[STILL, LITTLE_ABOVE, READING], ANSWER, 5.0),
    with(DRAG, &[STILL, FAR_ABOVE, READING], ANSWER, 6.0),
    with(DRAG, &[STEEP_AIR, READING], ANSWER, 5.0),
    with(DRAG, &[NO_SPEED, READING], ANSWER, 5.0),
    with(&[ALONG_X], &[(WAYPOINT, &[("T", 0.25), ("position_m.z", 2.0)]), READING], ANSWER, 6.0),
];

const LEANT_FAR: Call = (STICKS, &[("throttle", 0.3), ("attitude.w", STEEPER.0), ("attitude.i", STEEPER.1)]);
const UPSIDE_DOWN: Call = (STICKS, &[("throttle", 0.3), ("attitude.w", 0.0), ("attitude.i", 1.0)]);
const FAR_AHEAD: Call = (WAYPOINT, &[("position x", 10.0)]);
const LOST: Call = (WAYPOINT, &[("position x", 10.0), ("position_m.x", f32::NAN)]);

/// Flags are 1 for tilt, 2 for thrust and 4 for idle.
pub const FLAGGED: &[Fact] = &[
    after(&[LEANT_FAR], "thrust", 0.6),
    after(&[UPSIDE_DOWN], "thrust", 0.0),
    after(&[FAR_AHEAD], FLAGS, 1.0),
    // A step that cannot be worked out is level, and does not keep the flag.
    after(&[FAR_AHEAD, LOST], FLAGS, 0.0),
    after(&[FAR_AHEAD, LOST], "pitch", 0.0),
    after(&[(STICKS, &[("throttle", 0.05)])], FLAGS, 4.0),
    after(&[(STICKS, &[("throttle", 0.051)])], FLAGS, 0.0),
    after(&[(STICKS, &[("throttle", f32::NAN)])], FLAGS, 4.0),
    after(&[(STICKS, &[("throttle", 1.5)])], FLAGS, 2.0),
    after(&[(ATTITUDE, &[("thrust", -0.1)])], FLAGS, 6.0),
    after(&[(WAYPOINT, &[("altitude", 100.0)])], FLAGS, 2.0),
    after(&[(WAYPOINT, &[])], FLAGS, 0.0),
    with(&[("altitude.hover_thrust", 1.0)], &[(WAYPOINT, &[])], FLAGS, 2.0),
    with(&[("thrust.min_thrust", 0.6)], &[(WAYPOINT, &[])], FLAGS, 2.0),
    with(&[("thrust.min_thrust", 0.6)], &[(ATTITUDE, &[("thrust", 0.3)])], FLAGS, 2.0),
    with(&[("thrust.min_thrust", 0.6)], &[(ATTITUDE, &[("thrust", 0.05)])], FLAGS, 4.0),
    with(&[("thrust.max_boost_thrust", 0.6)], &[LEANT], FLAGS, 2.0),
    // The sink guard acts, and has nothing to add.
    with(&[("thrust.sink_limit_mps", 1.0)], &[SINKING], FLAGS, 2.0),
];
