//! What the values mean, by what they do: each name of the state, of a command and of an answer in turn, with its axis,
//! sign and unit. A craft with the default configuration is primed at rest (level, facing north, at altitude 0) and
//! flown; a number of the last answer has to be what the meaning gives, worked out by hand from the Rust's formulas.

use crate::flight::{self, Named, PRIME, WAYPOINT, WIND, answers, configure, record};
use crate::program::Program;
use crate::tables::Formats;
use crate::{Found, Reference};
use crate::{field_facts, sentences};

/// How far a number may be off, for a size of 1 or more as a share of it.
const NEAR: f32 = 1e-3;

pub const STICKS: u8 = 3;
pub const ATTITUDE: u8 = 6;
pub const LAND: u8 = 7;
const RATES: u8 = 8;

/// Asks for the number of the answer itself.
pub const ANSWER: &str = "the number of the answer";

/// Asks for the byte of flags.
pub const FLAGS: &str = "flags";

/// The tilt toward a point that is 1 m away, and against a speed of 1 m/s, in radians.
const TOWARD: f32 = 0.06447;
pub const AGAINST: f32 = 0.12841;

/// Half of 45° and half of 0.1 rad, as parts of a quaternion.
pub const EIGHTH: (f32, f32) = (0.923_879_5, 0.382_683_43);
const SLIGHT: (f32, f32) = (0.998_750_3, 0.049_979_17);

/// The wind that 0.6 m/s² of push shows, and that which gravity seems to be at a tilt of 0.1 rad, in m/s.
pub const PUSHED: f32 = 1.946;
const LEANING: f32 = 3.1904;

/// Momentum drag along the body's axes.
pub const ALONG_X: (&str, f32) = ("wind.momentum_per_s.x", 0.3);
pub const ALONG_Y: (&str, f32) = ("wind.momentum_per_s.y", 0.3);
pub const DRAG: &Named = &[ALONG_X, ALONG_Y];
const DRAG_X: &Named = &[ALONG_X];
const DRAG_Y: &Named = &[ALONG_Y];

pub type Call = (u8, &'static Named<'static>);

/// A value of the answer to the last of some calls, with some fields in the place of their defaults.
#[derive(Clone, Copy)]
pub struct Fact {
    fields: &'static Named<'static>,
    calls: &'static [Call],
    value: &'static str,
    is: f32,
}

pub const fn after(calls: &'static [Call], value: &'static str, is: f32) -> Fact {
    Fact { fields: &[], calls, value, is }
}

pub const fn with(fields: &'static Named<'static>, calls: &'static [Call], value: &'static str, is: f32) -> Fact {
    Fact { fields, calls, value, is }
}

pub fn check(formats: &Formats, reference: &Reference, found: &mut Found) -> Result<(), String> {
    let fields = [field_facts::LOOPS, field_facts::GUIDANCE, field_facts::THRUST, field_facts::WIND].concat();
    let parts: [(&str, &[Fact]); 6] = [
        ("facts of the state", STATE),
        ("facts of commands", COMMANDS),
        ("facts of the wind", WINDS),
        ("facts of primings and of the air", sentences::PRIMINGS),
        ("facts of thrust and flags", sentences::FLAGGED),
        ("facts of fields", &fields),
    ];
    for (part, facts) in parts {
        hold(facts, formats, &reference.program, found).map_err(|error| format!("{part}: {error}"))?;
        found.done(part, facts.len());
    }
    Ok(())
}

/// Flies all of some facts as one flight.
fn hold(facts: &[Fact], formats: &Formats, program: &Program, found: &mut Found) -> Result<(), String> {
    let flights: Vec<Vec<u8>> = facts.iter().map(|fact| fact.flight(formats)).collect::<Result<_, String>>()?;
    let written = program.fly(&flights.concat())?;
    let mut answers = answers(formats, &written)?.into_iter();
    for fact in facts {
        // The answers to the configuration and the priming stand before those to the calls.
        let answer = answers.nth(1 + fact.calls.len()).ok_or("there are too few answers")?;
        fact.compare(formats, answer, found)?;
    }
    Ok(())
}

impl Fact {
    fn flight(&self, formats: &Formats) -> Result<Vec<u8>, String> {
        let mut flight = configure(formats, self.fields)?;
        flight.extend(record(formats, PRIME, &[])?);
        for (kind, values) in self.calls {
            flight.extend(record(formats, *kind, values)?);
        }
        Ok(flight)
    }

    fn compare(&self, formats: &Formats, answer: &[u8], found: &mut Found) -> Result<(), String> {
        let value = match self.value {
            ANSWER => answer[0].into(),
            FLAGS => flight::byte(formats, answer, FLAGS)?.into(),
            name => flight::float(formats, answer, name)?,
        };
        let near = (value - self.is).abs() <= NEAR * self.is.abs().max(1.0);
        let Fact { fields, calls, value: name, is } = self;
        found.expect(near, || format!("with {fields:?} after {calls:?} '{name}' is {value}, and not {is}"));
        Ok(())
    }
}

const STATE: &[Fact] = &[
    after(&[(WAYPOINT, &[("position_m.x", -1.0)])], "pitch", -TOWARD),
    after(&[(WAYPOINT, &[("position_m.x", -1.0)])], "roll", 0.0),
    after(&[(WAYPOINT, &[("position_m.y", -1.0)])], "roll", TOWARD),
    after(&[(WAYPOINT, &[("position_m.y", -1.0)])], "pitch", 0.0),
    after(&[(WAYPOINT, &[("position_m.z", -1.0)])], "thrust", 0.57648),
    after(&[(WAYPOINT, &[("velocity_mps.x", 1.0)])], "pitch", AGAINST),
    after(&[(WAYPOINT, &[("velocity_mps.y", 1.0)])], "roll", -AGAINST),
    after(&[(WAYPOINT, &[("velocity_mps.z", -1.0)])], "thrust", 0.60197),
    after(&[(STICKS, &[("throttle", 0.5), ("attitude.w", EIGHTH.0), ("attitude.i", EIGHTH.1)])], "thrust", 0.7071),
    after(&[(STICKS, &[("throttle", 0.5), ("attitude.w", EIGHTH.0), ("attitude.j", EIGHTH.1)])], "thrust", 0.7071),
    after(&[(STICKS, &[("throttle", 0.5), ("attitude.w", EIGHTH.0), ("attitude.k", EIGHTH.1)])], "thrust", 0.5),
    // A leg to the east that the nose does not turn to yields, unless it turns right.
    after(&[EAST; 3], "heading", 0.0),
    after(&[EAST_TURNING_LEFT; 3], "heading", 0.0),
    after(&[EAST_TURNING_RIGHT; 3], "heading", 1.5708),
    // Facing east, north is to the left.
    after(&[(WAYPOINT, &[("position x", 1.0), ("heading_rad", 1.5708)])], "roll", -TOWARD),
    after(&[(RATES, &[("heading_rad", 1.0)]), (STICKS, &[])], "heading", 1.0),
];

pub const EAST: Call = (WAYPOINT, &[("T", 1.0), ("position y", 100.0)]);
const EAST_TURNING_LEFT: Call = (WAYPOINT, &[("T", 1.0), ("position y", 100.0), ("angular_velocity_radps.z", -0.5)]);
pub const EAST_TURNING_RIGHT: Call =
    (WAYPOINT, &[("T", 1.0), ("position y", 100.0), ("angular_velocity_radps.z", 0.5)]);

const COMMANDS: &[Fact] = &[
    after(&[(STICKS, &[("throttle", 0.3)])], "thrust", 0.3),
    after(&[(STICKS, &[("throttle", 2.0)])], "thrust", 1.0),
    after(&[(STICKS, &[("throttle", f32::NAN)])], "thrust", 0.0),
    after(&[(STICKS, &[("roll", 0.5)])], "roll", 0.3927),
    after(&[(STICKS, &[("roll", 2.0)])], "roll", 0.7854),
    after(&[(STICKS, &[("roll", f32::NAN)])], "roll", 0.0),
    after(&[(STICKS, &[("pitch", 0.5)])], "pitch", 0.3927),
    after(&[(STICKS, &[("T", 0.5), ("yaw", 1.0)])], "heading", 0.5),
    after(&[(STICKS, &[("T", 0.5), ("yaw", -9.0)])], "heading", -0.5),
    after(&[(WAYPOINT, &[("position x", 1.0)])], "pitch", -TOWARD),
    after(&[(WAYPOINT, &[("position y", 1.0)])], "roll", TOWARD),
    after(&[(WAYPOINT, &[("mark of velocity", 1.0), ("velocity x", 1.0)])], "pitch", -AGAINST),
    after(&[(WAYPOINT, &[("mark of velocity", 1.0), ("velocity y", 1.0)])], "roll", AGAINST),
    after(&[(WAYPOINT, &[("mark of velocity", 0.0), ("velocity x", 1.0)])], "pitch", 0.0),
    after(&[(WAYPOINT, &[("altitude", 1.0)])], "thrust", 0.57648),
    after(&[(WAYPOINT, &[("position x", 10.0)])], "pitch", -0.47124),
    after(&[(WAYPOINT, &[("position x", 10.0), ("cruise speed", 1.0)])], "pitch", -AGAINST),
    after(&[(WAYPOINT, &[("position x", 10.0), ("cruise speed", -1.0)])], "pitch", -0.47124),
    after(&[(WAYPOINT, &[("T", 0.5), ("mark of heading", 1.0), ("heading", 1.0)])], "heading", 0.5236),
    after(&[(WAYPOINT, &[("T", 0.5), ("mark of heading", 0.0), ("heading", 1.0)])], "heading", 0.0),
    after(&[(ATTITUDE, &[("roll", 2.0)])], "roll", 2.0),
    after(&[(ATTITUDE, &[("pitch", 2.0)])], "pitch", 2.0),
    after(&[(ATTITUDE, &[("heading", 4.0)])], "heading", 4.0 - 6.283_185_5),
    after(&[(ATTITUDE, &[("heading", 1.0)]), (ATTITUDE, &[("heading", f32::NAN)])], "heading", 1.0),
    after(&[(ATTITUDE, &[("thrust", 0.25)])], "thrust", 0.25),
    after(&[(LAND, &[("position x", 1.0)])], "pitch", -TOWARD),
    after(&[(LAND, &[("position y", 1.0)])], "roll", TOWARD),
    after(&[(LAND, &[("T", 1.0)])], "thrust", 0.36795),
    after(&[(RATES, &[("roll rate", 2.0)])], "roll rate", 2.0),
    after(&[(RATES, &[("pitch rate", 2.0)])], "pitch rate", 2.0),
    after(&[(RATES, &[("yaw rate", 2.0)])], "yaw rate", 2.0),
    after(&[(RATES, &[("thrust", 0.25)])], "thrust", 0.25),
];

pub const READING: Call = (WIND, &[]);
pub const STILL: Call = (ATTITUDE, &[("T", 0.25), ("position_m.z", 2.0)]);
pub const PUSHED_NORTH: Call = (ATTITUDE, &[("T", 0.25), ("position_m.z", 2.0), ("acceleration_mps2.x", 0.6)]);
pub const PUSHED_EAST: Call = (ATTITUDE, &[("T", 0.25), ("position_m.z", 2.0), ("acceleration_mps2.y", 0.6)]);
pub const GOING_NORTH: Call = (ATTITUDE, &[("T", 0.25), ("position_m.z", 2.0), ("velocity_mps.x", 0.5)]);
const ROLLED: Call =
    (ATTITUDE, &[("T", 0.25), ("position_m.z", 2.0), ("attitude.w", SLIGHT.0), ("attitude.i", SLIGHT.1)]);
const NOSE_UP: Call =
    (ATTITUDE, &[("T", 0.25), ("position_m.z", 2.0), ("attitude.w", SLIGHT.0), ("attitude.j", SLIGHT.1)]);
const ROLLED_FALLING: Call = (
    ATTITUDE,
    &[
        ("T", 0.25),
        ("position_m.z", 2.0),
        ("attitude.w", SLIGHT.0),
        ("attitude.i", SLIGHT.1),
        ("acceleration_mps2.z", -9.80665),
    ],
);
const NORTH_EAST: Call = (
    ATTITUDE,
    &[
        ("T", 0.25),
        ("position_m.z", 2.0),
        ("attitude.w", EIGHTH.0),
        ("attitude.k", EIGHTH.1),
        ("acceleration_mps2.x", 0.6),
    ],
);

const WINDS: &[Fact] = &[
    with(&[], &[STILL, READING], ANSWER, 5.0),
    with(DRAG, &[(ATTITUDE, &[("T", 0.25), ("position_m.z", 1.0)]), READING], ANSWER, 5.0),
    with(DRAG, &[(ATTITUDE, &[("T", 0.19), ("position_m.z", 2.0)]), READING], ANSWER, 5.0),
    with(DRAG, &[STILL, READING], ANSWER, 6.0),
    with(DRAG, &[PUSHED_NORTH, READING], "velocity x", PUSHED),
    with(DRAG, &[PUSHED_NORTH, READING], "velocity y", 0.0),
    with(DRAG, &[PUSHED_EAST, READING], "velocity y", PUSHED),
    with(DRAG, &[PUSHED_EAST, READING], "velocity x", 0.0),
    // With no push, the air goes along with the craft.
    with(DRAG, &[GOING_NORTH, READING], "velocity x", PUSHED / 4.0),
    // A craft that leans and does not speed up is held by a wind; one that falls freely is not.
    with(DRAG, &[ROLLED, READING], "velocity y", -LEANING),
    with(DRAG, &[NOSE_UP, READING], "velocity x", LEANING),
    with(DRAG, &[ROLLED_FALLING, READING], "velocity y", 0.0),
    // Drag along one axis of the body tells the wind along it alone, which the covariance shows.
    with(DRAG_X, &[NORTH_EAST, READING], "velocity x", PUSHED / 2.0),
    with(DRAG_X, &[NORTH_EAST, READING], "velocity y", PUSHED / 2.0),
    with(DRAG_X, &[NORTH_EAST, READING], "covariance 01", -48.65),
    with(DRAG_X, &[NORTH_EAST, READING], "covariance 10", -48.65),
    with(DRAG_X, &[STILL, READING], "covariance 00", 2.7027),
    with(DRAG_X, &[STILL, READING], "covariance 11", 100.0025),
    with(DRAG_Y, &[STILL, READING], "covariance 00", 100.0025),
    with(DRAG_Y, &[STILL, READING], "covariance 11", 2.7027),
];
