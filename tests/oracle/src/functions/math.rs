//! The helpers of `math.rs` that guidance calls, and `lagged`, which it does not.

use stable_flight::{testing, wrap_angle};

use super::{Function, Role};

pub static TABLE: &[Function] = &[
    Function {
        name: "wrap_angle",
        roles: &[Role::Float(20.0)],
        outputs: 1,
        start: || Box::new(|input, out| out.float(wrap_angle(input.float()))),
    },
    Function {
        name: "cap_magnitude",
        roles: &[Role::Float(10.0), Role::Float(10.0), Role::Float(10.0)],
        outputs: 2,
        start: || {
            Box::new(|input, out| {
                let (v, max) = (input.vec2(), input.float());
                out.vec2(testing::cap_magnitude(v, max));
            })
        },
    },
    Function {
        name: "saturate_unit",
        roles: &[Role::Float(2.0)],
        outputs: 1,
        start: || Box::new(|input, out| out.float(testing::saturate_unit(input.float()))),
    },
    Function {
        name: "saturate_throttle",
        roles: &[Role::Float(2.0)],
        outputs: 1,
        start: || Box::new(|input, out| out.float(testing::saturate_throttle(input.float()))),
    },
    Function {
        name: "saturate_symmetric",
        roles: &[Role::Float(5.0), Role::Float(5.0)],
        outputs: 1,
        start: || {
            Box::new(|input, out| {
                let (value, limit) = (input.float(), input.float());
                out.float(testing::saturate_symmetric(value, limit));
            })
        },
    },
    Function {
        name: "clamp_symmetric",
        roles: &[Role::Float(5.0), Role::Float(5.0)],
        outputs: 1,
        start: || {
            Box::new(|input, out| {
                let (value, limit) = (input.float(), input.float());
                out.float(testing::clamp_symmetric(value, limit));
            })
        },
    },
    Function {
        name: "limit_or_zero",
        roles: &[Role::Float(5.0)],
        outputs: 1,
        start: || Box::new(|input, out| out.float(testing::limit_or_zero(input.float()))),
    },
    Function {
        name: "lagged",
        roles: &[Role::Float(5.0), Role::Float(5.0), Role::Step, Role::Float(2.0)],
        outputs: 1,
        start: || {
            Box::new(|input, out| {
                let (value, target) = (input.float(), input.float());
                let (dt, time_constant_s) = (input.float(), input.float());
                out.float(testing::lagged(value, target, dt, time_constant_s));
            })
        },
    },
    Function {
        name: "neu_to_ned",
        roles: &[Role::Float(10.0), Role::Float(10.0), Role::Float(10.0)],
        outputs: 3,
        start: || Box::new(|input, out| out.vec3(testing::neu_to_ned(input.vec3()))),
    },
    Function {
        name: "tilt_boost",
        roles: &[Role::Attitude],
        outputs: 1,
        start: || Box::new(|input, out| out.float(testing::tilt_boost(&input.attitude()))),
    },
    Function {
        name: "guard_sink",
        roles: &[Role::Float(1.0), Role::Float(5.0), Role::Fields(39, 40)],
        outputs: 2,
        start: || {
            Box::new(|input, out| {
                let (thrust, climb_mps) = (input.float(), input.float());
                let (limit_mps, gain) = (input.float(), input.float());
                out.option(testing::guard_sink(thrust, climb_mps, limit_mps, gain));
            })
        },
    },
    Function {
        name: "shaped_closing_speed",
        roles: &[Role::Float(50.0), Role::Float(3.0), Role::Float(5.0)],
        outputs: 1,
        start: || {
            Box::new(|input, out| {
                let (distance_m, p, accel_mps2) = (input.float(), input.float(), input.float());
                out.float(testing::shaped_closing_speed(distance_m, p, accel_mps2));
            })
        },
    },
];
