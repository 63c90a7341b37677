//! A craft: nothing, or the Rust's copter guidance with a configuration.

use stable_flight::guidance::copter::CopterGuidance;
use stable_flight::{FlightRegime, Guidance, Setpoint};

use crate::config;
use crate::records::{self, Answer, Refusal, Request};

/// What the records of a flight work on.
#[derive(Default)]
pub struct Craft {
    pub guidance: Option<CopterGuidance>,
}

impl Craft {
    /// Answers one whole record. A refused one leaves the craft as it was.
    pub fn answer(&mut self, kind: u8, body: &[u8]) -> Answer {
        match records::read(kind, body, self.guidance.is_some()) {
            Ok(request) => self.serve(request),
            Err(refusal) => Answer::Refused(refusal),
        }
    }

    fn serve(&mut self, request: Request) -> Answer {
        if let Request::Configure(fields) = request {
            let config = config::from_fields(&fields);
            self.guidance = Some(CopterGuidance::with_judged_config(config));
            return Answer::Done;
        }
        let Some(guidance) = &mut self.guidance else {
            return Answer::Refused(Refusal::NoCraft);
        };
        match request {
            Request::Configure(_) => unreachable!("it was served above"),
            Request::Prime(state) => {
                guidance.prime(&state);
                Answer::Done
            }
            Request::Call { dt, state, input } => {
                let setpoint = guidance.guide(dt, FlightRegime::Copter, &input, &state);
                setpoint_answer(setpoint, guidance)
            }
            Request::Wind => wind_answer(guidance),
        }
    }
}

fn setpoint_answer(setpoint: Setpoint, guidance: &CopterGuidance) -> Answer {
    let saturation = guidance.saturation();
    let flags = u8::from(saturation.tilt)
        | u8::from(saturation.thrust) << 1
        | u8::from(setpoint.idle()) << 2;
    match setpoint {
        Setpoint::Attitude(s) => {
            assert!(!s.transition, "document 01 has transition always false");
            let floats = [s.roll_rad, s.pitch_rad, s.heading_rad, s.thrust];
            Answer::Attitude { roll_pitch_heading_thrust: floats, flags }
        }
        Setpoint::BodyRate(s) => {
            let floats = [s.roll_radps, s.pitch_radps, s.yaw_radps, s.thrust];
            Answer::BodyRate { rates_thrust: floats, flags }
        }
        other => unreachable!("no call here gives {other:?}"),
    }
}

fn wind_answer(guidance: &CopterGuidance) -> Answer {
    let Some(wind) = guidance.wind() else {
        return Answer::NoWind;
    };
    let (v, c) = (wind.velocity_mps, wind.covariance_m2ps2);
    let velocity_covariance = [v.x, v.y, c[(0, 0)], c[(0, 1)], c[(1, 0)], c[(1, 1)]];
    Answer::Wind { velocity_covariance }
}
