//! The 50 fields of a configuration, in the order of document 01, and the rule of each.

use stable_flight::Vec2;
use stable_flight::controllers::{AltitudeControllerConfig, Gains, LateralControllerConfig};
use stable_flight::estimation::wind::WindConfig;
use stable_flight::guidance::copter::{CopterGuidanceConfig, ThrustLimits};

pub const FIELDS: usize = 50;

/// The values of fields 1 to 50, at indexes 0 to 49.
pub type Fields = [f32; FIELDS];

/// The configuration that the fields stand for.
pub fn from_fields(fields: &Fields) -> CopterGuidanceConfig {
    let mut rest = fields.iter().copied();
    let mut next = || rest.next().expect("there are 50 fields");
    // Struct expressions evaluate their fields in the order written here, which is document
    // 01's and not always the struct's.
    CopterGuidanceConfig {
        altitude: AltitudeControllerConfig {
            gains: Gains { p: next(), i: next(), d: next() },
            max_integral: next(),
            hover_thrust: next(),
            integration_band_m: next(),
        },
        lateral: LateralControllerConfig {
            position_p: next(),
            velocity: Gains { p: next(), i: next(), d: next() },
            max_integral: next(),
            max_accel_mps2: next(),
            brake_mps2: next(),
            braking_share: next(),
        },
        navigation_period_s: next(),
        max_stick_angles_rad: Vec2::new(next(), next()),
        stick_yaw_rate_radps: next(),
        idle_throttle: next(),
        max_tilt_rad: next(),
        max_descent_mps: next(),
        descent_accel_mps2: next(),
        climb_decel_mps2: next(),
        altitude_leash_m: next(),
        land_speed_mps: next(),
        waypoint_yaw_radps: next(),
        heading_rate_radps: next(),
        waypoint_yaw_min_leg_m: next(),
        heading_yield_rad: next(),
        heading_yield_rate_radps: next(),
        heading_yield_s: next(),
        wind_heading_min_mps: next(),
        wind_heading_from_wind_rad: next(),
        wind_heading_max_sd_rad: next(),
        wind_heading_deadband_rad: next(),
        airborne_height_m: next(),
        feedforward_hold_band_mps: next(),
        thrust: ThrustLimits {
            min_thrust: next(),
            sink_limit_mps: next(),
            sink_gain: next(),
            max_boost_thrust: next(),
        },
        wind: WindConfig {
            ballistic_kgpm2: Vec2::new(next(), next()),
            momentum_per_s: Vec2::new(next(), next()),
            force_noise_mps2: next(),
            process_noise_mps_per_rt_s: next(),
            initial_sd_mps: next(),
            gate_sigma: next(),
            max_axial_speed_mps: next(),
        },
    }
}

/// The fields of a configuration.
pub fn to_fields(config: &CopterGuidanceConfig) -> Fields {
    let CopterGuidanceConfig { altitude, lateral, thrust, wind, .. } = config;
    [
        altitude.gains.p,
        altitude.gains.i,
        altitude.gains.d,
        altitude.max_integral,
        altitude.hover_thrust,
        altitude.integration_band_m,
        lateral.position_p,
        lateral.velocity.p,
        lateral.velocity.i,
        lateral.velocity.d,
        lateral.max_integral,
        lateral.max_accel_mps2,
        lateral.brake_mps2,
        lateral.braking_share,
        config.navigation_period_s,
        config.max_stick_angles_rad.x,
        config.max_stick_angles_rad.y,
        config.stick_yaw_rate_radps,
        config.idle_throttle,
        config.max_tilt_rad,
        config.max_descent_mps,
        config.descent_accel_mps2,
        config.climb_decel_mps2,
        config.altitude_leash_m,
        config.land_speed_mps,
        config.waypoint_yaw_radps,
        config.heading_rate_radps,
        config.waypoint_yaw_min_leg_m,
        config.heading_yield_rad,
        config.heading_yield_rate_radps,
        config.heading_yield_s,
        config.wind_heading_min_mps,
        config.wind_heading_from_wind_rad,
        config.wind_heading_max_sd_rad,
        config.wind_heading_deadband_rad,
        config.airborne_height_m,
        config.feedforward_hold_band_mps,
        thrust.min_thrust,
        thrust.sink_limit_mps,
        thrust.sink_gain,
        thrust.max_boost_thrust,
        wind.ballistic_kgpm2.x,
        wind.ballistic_kgpm2.y,
        wind.momentum_per_s.x,
        wind.momentum_per_s.y,
        wind.force_noise_mps2,
        wind.process_noise_mps_per_rt_s,
        wind.initial_sd_mps,
        wind.gate_sigma,
        wind.max_axial_speed_mps,
    ]
}

/// The fields of the Rust's default configuration.
pub fn default_fields() -> Fields {
    to_fields(&CopterGuidanceConfig::default())
}

/// Whether field `number` (1 to 50) may have `value`: document 01's own rules for the altitude
/// and wind fields, anything for the velocity gains, and the Rust's `validate` for the rest.
pub fn field_holds(number: usize, value: f32) -> bool {
    match number {
        1..=4 | 6 | 42..=50 => value >= 0.0 && value.is_finite(),
        5 => value > 0.0 && value <= 1.0,
        8..=10 => true,
        _ => rust_accepts(number, value),
    }
}

/// Whether the Rust accepts its defaults with this one field replaced.
fn rust_accepts(number: usize, value: f32) -> bool {
    let mut fields = default_fields();
    fields[number - 1] = value;
    from_fields(&fields).validate().is_ok()
}

/// The lowest field that breaks its rule.
pub fn first_broken(fields: &Fields) -> Option<usize> {
    (1..=FIELDS).find(|number| !field_holds(*number, fields[number - 1]))
}
