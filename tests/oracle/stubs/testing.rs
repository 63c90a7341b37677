//! Stub. The crate compiles this module under its feature `testing`. Here it opens the helpers,
//! the divider and the derivative history, which are private to the crate, so that the oracle
//! can call them one by one. Nothing is computed in this file.

use core::fmt::Debug;

use crate::controllers::low_pass::DerivativeState;
use crate::guidance::rate_divider::RateDivider;
use crate::math;
use crate::nalgebra::UnitQuaternion;
use crate::{Vec2, Vec3};

macro_rules! open {
    ($($name:ident($($argument:ident: $type:ty),+) -> $result:ty;)+) => {
        $(pub fn $name($($argument: $type),+) -> $result {
            math::$name($($argument),+)
        })+
    };
}

open! {
    cap_magnitude(v: Vec2, max: f32) -> Vec2;
    saturate_unit(value: f32) -> f32;
    saturate_throttle(value: f32) -> f32;
    saturate_symmetric(value: f32, limit: f32) -> f32;
    clamp_symmetric(value: f32, limit: f32) -> f32;
    limit_or_zero(limit: f32) -> f32;
    lagged(value: f32, target: f32, dt: f32, time_constant_s: f32) -> f32;
    neu_to_ned(v: Vec3) -> Vec3;
    tilt_boost(attitude: &UnitQuaternion<f32>) -> f32;
    guard_sink(thrust: f32, climb_mps: f32, limit_mps: f32, gain: f32) -> Option<f32>;
    shaped_closing_speed(distance_m: f32, p: f32, accel_mps2: f32) -> f32;
}

/// The divider. Its memory is private to its file; its Debug text shows it.
#[derive(Default)]
pub struct OpenRateDivider(RateDivider);

impl OpenRateDivider {
    pub fn due(&mut self, dt: f32, period: f32) -> Option<f32> {
        self.0.due(dt, period)
    }

    pub fn ran(&mut self) {
        self.0.ran();
    }

    pub fn reset(&mut self) {
        self.0.reset();
    }

    pub fn memory(&self) -> &dyn Debug {
        &self.0
    }
}

/// The derivative history of a two-part error, as the lateral controller keeps it.
#[derive(Default)]
pub struct OpenDerivative(DerivativeState<Vec2>);

impl OpenDerivative {
    pub fn step(&mut self, error: Vec2, dt: f32) -> Vec2 {
        self.0.step(error, dt)
    }

    pub fn forget(&mut self) {
        self.0.forget();
    }

    pub fn memory(&self) -> &dyn Debug {
        &self.0
    }
}
