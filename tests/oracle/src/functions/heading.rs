//! The wingtip heading, the heading along a leg, and the functions of `copter.rs` itself.

use stable_flight::WaypointCommand;
use stable_flight::guidance::copter::CopterGuidance;

use super::{Call, Function, Role, read_config};
use crate::memory;

pub static TABLE: &[Function] = &[
    Function {
        name: "wind_heading",
        roles: &[Role::Choice(&[19, 1]), Role::Fields(32, 35), Role::Wind, Role::Heading],
        outputs: 13,
        start: wind_heading,
    },
    Function {
        name: "leg_heading",
        roles: &[
            Role::Choice(&[40, 6, 1, 1]),
            Role::Fields(26, 35),
            Role::Step,
            Role::Float(4.0),
            Role::Float(30.0),
            Role::Float(30.0),
            Role::Choice(&[9, 1]),
            Role::Float(7.0),
            Role::Wind,
            Role::State,
        ],
        outputs: 19,
        start: leg_heading,
    },
    Function {
        name: "tilt_for_acceleration",
        roles: &[Role::Float(8.0), Role::Float(8.0), Role::Heading],
        outputs: 2,
        start: || {
            Box::new(|input, out| {
                let (accel_mps2, heading_rad) = (input.vec2(), input.float());
                out.vec2(CopterGuidance::tilt_for_acceleration(accel_mps2, heading_rad));
            })
        },
    },
    Function {
        name: "drag_feedforward_mps2",
        roles: &[
            Role::Fields(42, 45),
            Role::Fields(37, 37),
            Role::Float(5.0),
            Role::Float(5.0),
            Role::Float(8.0),
            Role::Float(8.0),
            Role::Heading,
        ],
        outputs: 2,
        start: || {
            Box::new(|input, out| {
                let config = read_config(input, 42..=45).wind;
                let hold_band_mps = input.float();
                let (commanded_mps, wind_mps) = (input.vec2(), input.vec2());
                out.vec2(CopterGuidance::drag_feedforward_mps2(
                    &config,
                    hold_band_mps,
                    commanded_mps,
                    wind_mps,
                    input.float(),
                ));
            })
        },
    },
    Function {
        name: "lowered",
        roles: &[Role::Float(50.0), Role::Float(2.0), Role::Float(50.0), Role::Fields(24, 24)],
        outputs: 1,
        start: || {
            Box::new(|input, out| {
                let (start_m, step_m) = (input.float(), input.float());
                let (altitude_m, leash_m) = (input.float(), input.float());
                out.float(CopterGuidance::lowered(start_m, step_m, altitude_m, leash_m));
            })
        },
    },
];

fn wind_heading() -> Call {
    let mut heading = CopterGuidance::open_wind_heading();
    Box::new(move |input, out| {
        if input.flag() {
            heading = CopterGuidance::open_wind_heading();
        }
        let config = read_config(input, 32..=35);
        let wind = input.wind_estimate();
        out.option(heading.target_rad(&config, wind.as_ref(), input.float()));
        memory::wind_heading(heading.memory(), out);
    })
}

fn leg_heading() -> Call {
    let mut heading = CopterGuidance::open_leg_heading();
    Box::new(move |input, out| {
        let operation = input.whole();
        let config = read_config(input, 26..=35);
        let (dt, target_rad) = (input.float(), input.float());
        let position_m = input.vec2();
        let has_heading = input.flag();
        let heading_rad = input.float();
        let wind = input.wind_estimate();
        let state = input.state();
        let waypoint = WaypointCommand {
            position_m,
            heading_rad: has_heading.then_some(heading_rad),
            ..Default::default()
        };
        let wind = wind.as_ref();
        let result = match operation {
            0 => heading.target_rad(dt, &config, target_rad, &waypoint, wind, &state),
            1 => heading.land_target_rad(dt, &config, target_rad, wind, &state),
            2 => {
                heading.clear();
                0.0
            }
            _ => {
                heading.reset();
                0.0
            }
        };
        out.float(result);
        memory::leg_heading(heading.memory(), out);
    })
}
