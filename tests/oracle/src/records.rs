//! The flight file of document 01: records, the checks on them, and answers.

use stable_flight::{
    AbsoluteAttitudeCommand, AbsoluteRateCommand, AttitudeCommand, ControlInput, LandCommand,
    VehicleState, WaypointCommand,
};

use crate::config::{self, FIELDS, Fields};
use crate::words::{Reader, Writer};

pub const CONFIGURE: u8 = 1;
pub const PRIME: u8 = 2;
pub const ATTITUDE: u8 = 3;
pub const RATE: u8 = 4;
pub const WAYPOINT: u8 = 5;
pub const ABSOLUTE_ATTITUDE: u8 = 6;
pub const LAND: u8 = 7;
pub const ABSOLUTE_RATE: u8 = 8;
pub const WIND: u8 = 9;

/// The shortest and the longest time step, in seconds.
pub const MIN_STEP_S: f32 = 1.0 / 4096.0;
pub const MAX_STEP_S: f32 = 1.0;

/// The largest finite heading, in radians, that a state may have.
pub const MAX_HEADING_RAD: f32 = 1024.0;

/// The bytes of a body after its kind byte; none for a byte that is no kind.
pub fn body_length(kind: u8) -> Option<usize> {
    match kind {
        CONFIGURE => Some(200),
        PRIME => Some(60),
        ATTITUDE | ABSOLUTE_ATTITUDE | ABSOLUTE_RATE => Some(80),
        WAYPOINT => Some(94),
        LAND => Some(72),
        RATE | WIND => Some(0),
        _ => None,
    }
}

/// A refusal: its number, and for a configuration the field.
#[derive(Clone, Copy, Debug, PartialEq)]
pub enum Refusal {
    /// 1: a field of the configuration breaks its rule.
    Field(u8),
    /// 2: the time step is NaN or outside its limits.
    Step,
    /// 3: the state's heading is finite and too large.
    Heading,
    /// 4: the Rate input is not carried over.
    Rate,
    /// 5: the kind byte is not 1 to 9.
    Kind,
    /// 6: the record is cut short.
    Cut,
    /// 7: no craft is configured yet.
    NoCraft,
    /// 8: a mark is neither 0 nor 1.
    Mark,
}

impl Refusal {
    fn number_and_field(self) -> [u8; 2] {
        match self {
            Refusal::Field(field) => [1, field],
            Refusal::Step => [2, 0],
            Refusal::Heading => [3, 0],
            Refusal::Rate => [4, 0],
            Refusal::Kind => [5, 0],
            Refusal::Cut => [6, 0],
            Refusal::NoCraft => [7, 0],
            Refusal::Mark => [8, 0],
        }
    }

    /// After these refusals the program stops, since it cannot know where the next record is.
    pub fn ends_the_flight(self) -> bool {
        matches!(self, Refusal::Kind | Refusal::Cut)
    }
}

/// An answer. `flags` has bit 0 tilt saturated, bit 1 thrust saturated, bit 2 idle.
#[derive(Clone, Copy, Debug, PartialEq)]
pub enum Answer {
    Attitude { roll_pitch_heading_thrust: [f32; 4], flags: u8 },
    BodyRate { rates_thrust: [f32; 4], flags: u8 },
    Refused(Refusal),
    Done,
    NoWind,
    Wind { velocity_covariance: [f32; 6] },
}

impl Answer {
    pub fn write(&self, out: &mut Writer) {
        let floats = |out: &mut Writer, kind: u8, floats: &[f32]| {
            out.byte(kind);
            floats.iter().for_each(|value| out.float(*value));
        };
        match self {
            Answer::Attitude { roll_pitch_heading_thrust, flags } => {
                floats(out, 1, roll_pitch_heading_thrust);
                out.byte(*flags);
            }
            Answer::BodyRate { rates_thrust, flags } => {
                floats(out, 2, rates_thrust);
                out.byte(*flags);
            }
            Answer::Refused(refusal) => {
                out.byte(3);
                out.bytes.extend_from_slice(&refusal.number_and_field());
            }
            Answer::Done => out.byte(4),
            Answer::NoWind => out.byte(5),
            Answer::Wind { velocity_covariance } => floats(out, 6, velocity_covariance),
        }
    }
}

/// What a record asks for, once its own bytes have passed their checks.
pub enum Request {
    Configure(Box<Fields>),
    Prime(VehicleState),
    Call { dt: f32, state: VehicleState, input: ControlInput },
    Wind,
}

/// Reads and checks the body of a record, in document 01's order. `body` has the kind's length.
pub fn read(kind: u8, body: &[u8], configured: bool) -> Result<Request, Refusal> {
    let mut body = Reader::new(body);
    if kind == CONFIGURE {
        return read_configure(&mut body);
    }
    if !configured {
        return Err(Refusal::NoCraft);
    }
    match kind {
        PRIME => {
            let state = body.state();
            check_heading(&state)?;
            Ok(Request::Prime(state))
        }
        RATE => Err(Refusal::Rate),
        WIND => Ok(Request::Wind),
        _ => read_call(kind, &mut body),
    }
}

fn read_configure(body: &mut Reader) -> Result<Request, Refusal> {
    let mut fields = [0.0; FIELDS];
    fields.fill_with(|| body.float());
    match config::first_broken(&fields) {
        Some(field) => Err(Refusal::Field(field as u8)),
        None => Ok(Request::Configure(Box::new(fields))),
    }
}

/// Calls 3 and 5 to 8. The marks are judged before the time step and the heading.
fn read_call(kind: u8, body: &mut Reader) -> Result<Request, Refusal> {
    let dt = body.float();
    let state = body.state();
    let input = match kind {
        ATTITUDE => ControlInput::Attitude(AttitudeCommand {
            throttle: body.float(),
            roll: body.float(),
            pitch: body.float(),
            yaw: body.float(),
        }),
        WAYPOINT => ControlInput::Waypoint(read_waypoint(body)?),
        ABSOLUTE_ATTITUDE => ControlInput::AbsoluteAttitude(AbsoluteAttitudeCommand {
            roll_rad: body.float(),
            pitch_rad: body.float(),
            heading_rad: body.float(),
            thrust: body.float(),
        }),
        LAND => ControlInput::Land(LandCommand { position_m: body.vec2() }),
        ABSOLUTE_RATE => ControlInput::AbsoluteRate(AbsoluteRateCommand {
            roll_radps: body.float(),
            pitch_radps: body.float(),
            yaw_radps: body.float(),
            thrust: body.float(),
        }),
        _ => unreachable!("the kind was checked"),
    };
    // False for NaN.
    let legal_step = dt >= MIN_STEP_S && dt <= MAX_STEP_S;
    if !legal_step {
        return Err(Refusal::Step);
    }
    check_heading(&state)?;
    Ok(Request::Call { dt, state, input })
}

/// A mark of 1 stands before a value that is present, 0 before one that is absent.
fn read_waypoint(body: &mut Reader) -> Result<WaypointCommand, Refusal> {
    let position_m = body.vec2();
    let velocity_mark = body.byte();
    let velocity_mps = body.vec2();
    let altitude_m = body.float();
    let cruise_speed_mps = body.float();
    let heading_mark = body.byte();
    let heading_rad = body.float();
    if velocity_mark > 1 || heading_mark > 1 {
        return Err(Refusal::Mark);
    }
    Ok(WaypointCommand {
        position_m,
        velocity_mps: (velocity_mark == 1).then_some(velocity_mps),
        altitude_m,
        cruise_speed_mps,
        heading_rad: (heading_mark == 1).then_some(heading_rad),
    })
}

fn check_heading(state: &VehicleState) -> Result<(), Refusal> {
    let heading_rad = state.heading_rad;
    if heading_rad.is_finite() && heading_rad.abs() > MAX_HEADING_RAD {
        return Err(Refusal::Heading);
    }
    Ok(())
}
