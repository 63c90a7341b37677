//! Float leaves: libm's functions and those of core.

use super::{Function, Role};
use crate::words::NO_RESULT;

/// A function of one float.
macro_rules! unary {
    ($name:literal, $function:expr) => {
        unary!($name, $function, Role::Float(8.0))
    };
    ($name:literal, $function:expr, $role:expr) => {
        Function {
            name: $name,
            roles: &[$role],
            outputs: 1,
            start: || Box::new(|input, out| out.float($function(input.float()))),
        }
    };
}

/// A function of two floats.
macro_rules! binary {
    ($name:literal, $function:expr) => {
        Function {
            name: $name,
            roles: &[Role::Float(8.0), Role::Float(8.0)],
            outputs: 1,
            start: || {
                Box::new(|input, out| {
                    let (a, b) = (input.float(), input.float());
                    out.float($function(a, b));
                })
            },
        }
    };
}

pub static TABLE: &[Function] = &[
    unary!("sqrtf", libm::sqrtf),
    unary!("sinf", libm::sinf, Role::Heading),
    unary!("cosf", libm::cosf, Role::Heading),
    unary!("atanf", libm::atanf),
    binary!("atan2f", libm::atan2f),
    unary!("abs", f32::abs),
    unary!("signum", f32::signum),
    binary!("min", f32::min),
    binary!("max", f32::max),
    binary!("rem", |a: f32, b: f32| a % b),
    unary!("is_finite", |a: f32| f32::from(a.is_finite())),
    unary!("is_nan", |a: f32| f32::from(a.is_nan())),
    Function {
        name: "clamp",
        roles: &[Role::Float(8.0), Role::Bounds(8.0)],
        outputs: 1,
        start: || {
            Box::new(|input, out| {
                let (value, low, high) = (input.float(), input.float(), input.float());
                // The Rust panics on any other pair of bounds.
                if low <= high {
                    out.float(value.clamp(low, high));
                } else {
                    out.whole(NO_RESULT);
                }
            })
        },
    },
    Function {
        name: "narrow",
        roles: &[Role::Wide],
        outputs: 1,
        start: || {
            Box::new(|input, out| {
                let (low, high) = (u64::from(input.whole()), u64::from(input.whole()));
                out.float(f64::from_bits(high << 32 | low) as f32);
            })
        },
    },
];
