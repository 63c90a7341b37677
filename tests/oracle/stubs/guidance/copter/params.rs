//! Stub. As a child module of copter guidance it can read and set what is private there. It
//! lets in configurations that document 01 accepts and `CopterGuidance::new` refuses, shows the
//! memory, and opens the functions that only guidance calls. Nothing is computed in this file.

use core::fmt::Debug;

use super::hover_wind::HoverWind;
use super::leg_heading::LegHeading;
use super::wind_heading::WindHeading;
use super::{CopterGuidance, CopterGuidanceConfig};
use crate::estimation::wind::{WindConfig, WindEstimate};
use crate::{Vec2, VehicleState, WaypointCommand};

/// The memory of a craft. What is private to files below copter guidance shows as Debug text.
pub struct Memory<'a> {
    pub tilt_rad: Vec2,
    pub tilt_capped: bool,
    pub requested_accel_mps2: Vec2,
    pub altitude_target_m: Option<f32>,
    pub descent_speed_mps: f32,
    pub lateral_rate: &'a dyn Debug,
    pub heading: f32,
    pub leg_heading: &'a dyn Debug,
    pub wind: &'a dyn Debug,
    pub altitude: &'a dyn Debug,
    pub lateral: &'a dyn Debug,
}

impl CopterGuidance {
    /// What `CopterGuidance::new` sets, with a configuration that the caller has judged.
    pub fn with_judged_config(config: CopterGuidanceConfig) -> Self {
        CopterGuidance { config, ..CopterGuidance::new(CopterGuidanceConfig::default()) }
    }

    /// A fresh craft with this one's configuration, wind memory and heading target.
    pub fn fresh_with_wind_and_heading(&self) -> Self {
        CopterGuidance {
            wind: self.wind,
            heading: self.heading,
            ..CopterGuidance::with_judged_config(self.config)
        }
    }

    pub fn memory(&self) -> Memory<'_> {
        Memory {
            tilt_rad: self.tilt_rad,
            tilt_capped: self.tilt_capped,
            requested_accel_mps2: self.requested_accel_mps2,
            altitude_target_m: self.altitude_target_m,
            descent_speed_mps: self.descent_speed_mps,
            lateral_rate: &self.lateral_rate,
            heading: self.heading,
            leg_heading: &self.leg_heading,
            wind: &self.wind,
            altitude: &self.altitude,
            lateral: &self.lateral,
        }
    }

    pub fn tilt_for_acceleration(accel_mps2: Vec2, heading_rad: f32) -> Vec2 {
        super::tilt_for_acceleration(accel_mps2, heading_rad)
    }

    pub fn drag_feedforward_mps2(
        wind: &WindConfig,
        hold_band_mps: f32,
        commanded_mps: Vec2,
        wind_mps: Vec2,
        heading_rad: f32,
    ) -> Vec2 {
        super::drag_feedforward_mps2(wind, hold_band_mps, commanded_mps, wind_mps, heading_rad)
    }

    pub fn lowered(start_m: f32, step_m: f32, altitude_m: f32, leash_m: f32) -> f32 {
        super::lowered(start_m, step_m, altitude_m, leash_m)
    }

    pub fn open_hover_wind() -> OpenHoverWind {
        OpenHoverWind(HoverWind::default())
    }

    pub fn open_wind_heading() -> OpenWindHeading {
        OpenWindHeading(WindHeading::default())
    }

    pub fn open_leg_heading() -> OpenLegHeading {
        OpenLegHeading(LegHeading::default())
    }
}

/// The wind memory of a craft, on its own.
pub struct OpenHoverWind(HoverWind);

impl OpenHoverWind {
    pub fn update(&mut self, dt: f32, config: &WindConfig, height_m: f32, state: &VehicleState) {
        self.0.update(dt, config, height_m, state);
    }

    pub fn prime(&mut self, height_m: f32, state: &VehicleState) {
        self.0.prime(height_m, state);
    }

    pub fn memory(&self) -> &dyn Debug {
        &self.0
    }
}

/// The wingtip heading, on its own.
pub struct OpenWindHeading(WindHeading);

impl OpenWindHeading {
    pub fn target_rad(
        &mut self,
        config: &CopterGuidanceConfig,
        wind: Option<&WindEstimate>,
        heading_rad: f32,
    ) -> Option<f32> {
        self.0.target_rad(config, wind, heading_rad)
    }

    pub fn memory(&self) -> &dyn Debug {
        &self.0
    }
}

/// The heading along a leg, on its own.
pub struct OpenLegHeading(LegHeading);

impl OpenLegHeading {
    pub fn target_rad(
        &mut self,
        dt: f32,
        config: &CopterGuidanceConfig,
        target_rad: f32,
        waypoint: &WaypointCommand,
        wind: Option<&WindEstimate>,
        state: &VehicleState,
    ) -> f32 {
        self.0.target_rad(dt, config, target_rad, waypoint, wind, state)
    }

    pub fn land_target_rad(
        &mut self,
        dt: f32,
        config: &CopterGuidanceConfig,
        target_rad: f32,
        wind: Option<&WindEstimate>,
        state: &VehicleState,
    ) -> f32 {
        self.0.land_target_rad(dt, config, target_rad, wind, state)
    }

    pub fn clear(&mut self) {
        self.0.clear();
    }

    pub fn reset(&mut self) {
        self.0.reset();
    }

    pub fn memory(&self) -> &dyn Debug {
        &self.0
    }
}
