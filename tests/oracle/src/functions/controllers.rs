//! The divider, the derivative history, and the altitude and lateral controllers.

use stable_flight::controllers::{
    AltitudeController, AltitudeEstimate, AltitudeTarget, LateralController, LateralEstimate,
    LateralTarget,
};
use stable_flight::testing::{OpenDerivative, OpenRateDivider};

use super::{Call, Function, Role, read_config};
use crate::memory;
use crate::words::{NO_RESULT, Writer};

pub static TABLE: &[Function] = &[
    Function {
        name: "rate_divider",
        roles: &[Role::Choice(&[14, 5, 1]), Role::Step, Role::Fields(15, 15)],
        outputs: 4,
        start: rate_divider,
    },
    Function {
        name: "derivative",
        roles: &[Role::Choice(&[18, 1, 1]), Role::Float(5.0), Role::Float(5.0), Role::Time],
        outputs: 5,
        start: derivative,
    },
    Function {
        name: "altitude",
        roles: &[
            Role::Choice(&[19, 1]),
            Role::Fields(1, 6),
            Role::Step,
            Role::Float(5.0),
            Role::Float(2.0),
            Role::Float(5.0),
            Role::Float(2.0),
            Role::Attitude,
        ],
        outputs: 2,
        start: altitude,
    },
    Function {
        name: "lateral",
        roles: &[
            Role::Choice(&[19, 1]),
            Role::Fields(7, 14),
            Role::Time,
            Role::Float(40.0),
            Role::Float(40.0),
            Role::Float(3.0),
            Role::Float(3.0),
            Role::Float(8.0),
            Role::Float(40.0),
            Role::Float(40.0),
            Role::Float(5.0),
            Role::Float(5.0),
            Role::Float(3.0),
            Role::Float(3.0),
        ],
        outputs: 12,
        start: lateral,
    },
];

/// A time that `assert_dt` lets pass.
fn is_time(dt: f32) -> bool {
    dt > 0.0 && dt.is_finite()
}

fn rate_divider() -> Call {
    let mut divider = OpenRateDivider::default();
    Box::new(move |input, out| {
        let (operation, dt, period) = (input.whole(), input.float(), input.float());
        let due = match operation {
            0 => divider.due(dt, period),
            1 => {
                divider.ran();
                None
            }
            _ => {
                divider.reset();
                None
            }
        };
        out.option(due);
        memory::rate_divider(divider.memory(), out);
    })
}

fn derivative() -> Call {
    let mut history = OpenDerivative::default();
    Box::new(move |input, out| {
        let (operation, error, dt) = (input.whole(), input.vec2(), input.float());
        let derivative = match operation {
            0 => history.step(error, dt),
            1 => {
                history.forget();
                Default::default()
            }
            _ => {
                history = OpenDerivative::default();
                Default::default()
            }
        };
        out.vec2(derivative);
        memory::derivative(history.memory(), out);
    })
}

fn altitude() -> Call {
    let mut controller = AltitudeController::default();
    Box::new(move |input, out| {
        if input.flag() {
            controller = AltitudeController::default();
        }
        let config = read_config(input, 1..=6).altitude;
        let dt = input.float();
        let target = AltitudeTarget { altitude_m: input.float(), velocity_mps: input.float() };
        let estimate = AltitudeEstimate {
            altitude_m: input.float(),
            velocity_mps: input.float(),
            attitude: input.attitude(),
        };
        if is_time(dt) {
            out.float(controller.control(&config, dt, target, estimate));
        } else {
            out.whole(NO_RESULT);
        }
        memory::altitude(&controller, out);
    })
}

fn lateral() -> Call {
    let mut controller = LateralController::default();
    Box::new(move |input, out| {
        if input.flag() {
            controller = LateralController::default();
        }
        let config = read_config(input, 7..=14).lateral;
        let dt = input.float();
        let target = LateralTarget {
            position_m: input.vec2(),
            velocity_mps: input.vec2(),
            max_speed_mps: input.float(),
        };
        let estimate = LateralEstimate { position_m: input.vec2(), velocity_mps: input.vec2() };
        let limit_mps2 = input.vec2();
        if is_time(dt) {
            out.vec2(controller.control(&config, dt, target, estimate, limit_mps2));
        } else {
            no_vec2(out);
        }
        memory::lateral(&controller, out);
    })
}

fn no_vec2(out: &mut Writer) {
    out.whole(NO_RESULT);
    out.whole(NO_RESULT);
}
