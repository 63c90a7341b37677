//! The wind memory and what surrounds it, and the stand-in's rotation.

use stable_flight::estimation::wind::WindEstimate;
use stable_flight::guidance::copter::CopterGuidance;

use super::{Call, Function, Role, read_config};
use crate::memory;

pub static TABLE: &[Function] = &[
    Function {
        name: "rotation",
        roles: &[Role::Attitude],
        outputs: 9,
        start: || {
            Box::new(|input, out| {
                let rotation = input.attitude().to_rotation_matrix();
                for row in 0..3 {
                    (0..3).for_each(|column| out.float(rotation[(row, column)]));
                }
            })
        },
    },
    Function {
        name: "drag_mps2",
        roles: &[Role::Fields(42, 45), Role::Float(10.0), Role::Float(10.0)],
        outputs: 2,
        start: || {
            Box::new(|input, out| {
                let config = read_config(input, 42..=45).wind;
                out.vec2(config.drag_mps2(input.vec2()));
            })
        },
    },
    Function {
        name: "sd_along_mps",
        roles: &[
            Role::Float(4.0),
            Role::Float(1.0),
            Role::Float(1.0),
            Role::Float(4.0),
            Role::Float(1.0),
            Role::Float(1.0),
        ],
        outputs: 1,
        start: || {
            Box::new(|input, out| {
                let covariance_m2ps2 = input.matrix2();
                let wind = WindEstimate { velocity_mps: Default::default(), covariance_m2ps2 };
                out.float(wind.sd_along_mps(input.vec2()));
            })
        },
    },
    Function {
        name: "wind",
        roles: &[
            Role::Choice(&[97, 2, 1]),
            Role::Fields(42, 50),
            Role::Fields(36, 36),
            Role::Step,
            Role::State,
        ],
        outputs: 20,
        start: hover_wind,
    },
];

fn hover_wind() -> Call {
    let mut wind = CopterGuidance::open_hover_wind();
    Box::new(move |input, out| {
        let operation = input.whole();
        let config = read_config(input, 42..=50).wind;
        let (height_m, dt, state) = (input.float(), input.float(), input.state());
        match operation {
            0 => wind.update(dt, &config, height_m, &state),
            1 => wind.prime(height_m, &state),
            _ => wind = CopterGuidance::open_hover_wind(),
        }
        memory::hover_wind(wind.memory(), out);
    })
}
