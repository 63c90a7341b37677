//! Times the port's wrap, altitude control, lateral control, wind update and leg heading beside the Rust's: one driver, the
//! same inputs, ratios.
//!
//! Both sides read the numbers of a call from an array and keep their memory from call to call. Their answers are compared
//! first.

mod heading;
mod timing;

use std::hint::black_box;

use stable_flight::controllers::{
    AltitudeController, AltitudeControllerConfig, AltitudeEstimate, AltitudeTarget, Gains, LateralController,
    LateralControllerConfig, LateralEstimate, LateralTarget,
};
use stable_flight::guidance::copter::CopterGuidanceConfig;
use stable_flight::nalgebra::{Quaternion, UnitQuaternion};
use stable_flight::{Vec2, wrap_angle};

const PASSES: usize = 50;

// The port, from the static library of crates/control_c.
unsafe extern "C" {
    safe fn tarragonhoe_wrap_angle(angle: f32) -> f32;
    safe fn tarragonhoe_altitude(integral: &mut f32, call: &[f32; 15]) -> f32;
    safe fn tarragonhoe_lateral(memory: &mut [f32; 12], call: &[f32; 20]);
}

fn gains(p: f32, i: f32, d: f32) -> Gains {
    Gains { p, i, d }
}

/// The Rust's altitude control on the numbers of a call, as crates/control_c has them.
fn altitude(controller: &mut AltitudeController, w: &[f32; 15]) -> f32 {
    let config = AltitudeControllerConfig {
        gains: gains(w[0], w[1], w[2]),
        max_integral: w[3],
        hover_thrust: w[4],
        integration_band_m: w[5],
    };
    let target = AltitudeTarget { altitude_m: w[7], velocity_mps: w[8] };
    let attitude = UnitQuaternion::new_unchecked(Quaternion::new(w[11], w[12], w[13], w[14]));
    let estimate = AltitudeEstimate { altitude_m: w[9], velocity_mps: w[10], attitude };
    controller.control(&config, w[6], target, estimate)
}

/// The same of lateral control.
fn lateral(controller: &mut LateralController, w: &[f32; 20]) -> Vec2 {
    let config = LateralControllerConfig {
        position_p: w[0],
        velocity: gains(w[1], w[2], w[3]),
        max_integral: w[4],
        max_accel_mps2: w[5],
        brake_mps2: w[6],
        braking_share: w[7],
    };
    let target = LateralTarget {
        position_m: Vec2::new(w[9], w[10]),
        velocity_mps: Vec2::new(w[11], w[12]),
        max_speed_mps: w[13],
    };
    let estimate =
        LateralEstimate { position_m: Vec2::new(w[14], w[15]), velocity_mps: Vec2::new(w[16], w[17]) };
    controller.control(&config, w[8], target, estimate, Vec2::new(w[18], w[19]))
}

fn time_wrap(name: &str, angles: &[f32]) {
    for &angle in angles {
        assert_eq!(tarragonhoe_wrap_angle(angle).to_bits(), wrap_angle(angle).to_bits());
    }
    let port = |&angle: &f32| {
        black_box(tarragonhoe_wrap_angle(black_box(angle)));
    };
    let reference = |&angle: &f32| {
        black_box(wrap_angle(black_box(angle)));
    };
    timing::compare(name, angles, 4 * PASSES, port, reference);
}

fn time_altitude(name: &str, calls: &[[f32; 15]]) {
    let (mut integral, mut controller) = (0.0, AltitudeController::default());
    for call in calls {
        let thrust = tarragonhoe_altitude(&mut integral, call);
        assert_eq!(thrust.to_bits(), altitude(&mut controller, call).to_bits());
    }
    let port = |call: &[f32; 15]| {
        black_box(tarragonhoe_altitude(&mut integral, black_box(call)));
    };
    let reference = |call: &[f32; 15]| {
        black_box(altitude(&mut controller, black_box(call)));
    };
    timing::compare(name, calls, PASSES, port, reference);
}

fn time_lateral(name: &str, calls: &[[f32; 20]]) {
    let (mut memory, mut controller) = ([0.0; 12], LateralController::default());
    for call in calls {
        tarragonhoe_lateral(&mut memory, call);
        let accel = lateral(&mut controller, call);
        assert_eq!([memory[10], memory[11]].map(f32::to_bits), [accel.x, accel.y].map(f32::to_bits));
    }
    let port = |call: &[f32; 20]| {
        tarragonhoe_lateral(black_box(&mut memory), black_box(call));
    };
    let reference = |call: &[f32; 20]| {
        black_box(lateral(&mut controller, black_box(call)));
    };
    timing::compare(name, calls, PASSES, port, reference);
}

/// Calls of as many numbers, the first ones fixed, the others uniform with the sizes given.
fn calls<const N: usize>(fixed: &[f32], sizes: &[f32]) -> Vec<[f32; N]> {
    let lists: Vec<_> = (1..).zip(sizes).map(|(seed, &size)| timing::inputs(seed, -size, size)).collect();
    let number = |at: usize, place: usize| match fixed.get(place) {
        Some(&fixed) => fixed,
        None => lists[place - fixed.len()][at],
    };
    (0..timing::INPUTS).map(|at| std::array::from_fn(|place| number(at, place))).collect()
}

fn main() {
    println!("{:34} port / reference", "");
    time_wrap("wrap, one turn", &timing::inputs(1, -3.2, 3.2));
    time_wrap("wrap, to 20", &timing::inputs(2, -20.0, 20.0));
    // The default gains, and a step of 1/64 s.
    let defaults = [1.5, 0.2, 2.0, 5.0, 0.5, 1.0, 0.015625];
    let sizes = [2.0, 1.0, 2.0, 1.0, 1.0, 0.3, 0.3, 0.3];
    time_altitude("altitude control", &calls(&defaults, &sizes));
    // The default gains with a braking curve, and then with shaping.
    let sizes = [40.0, 40.0, 1.0, 1.0, 8.0, 40.0, 40.0, 5.0, 5.0, 1.0, 1.0];
    let braking = [0.5, 1.26, 0.4, 0.0, 12.5, 0.0, 2.0, 0.5, 0.015625];
    time_lateral("lateral control, shaping off", &calls(&braking, &sizes));
    let shaping = [0.5, 1.26, 0.4, 0.0, 12.5, 3.0, 0.0, 0.5, 0.015625];
    time_lateral("lateral control, shaping on", &calls(&shaping, &sizes));
    // Steps of 1/64 s, of which every thirteenth closes a window, and steps that each close one.
    heading::time_wind("wind update", &heading::hover(0.015625));
    heading::time_wind("wind update, a window a step", &heading::hover(0.25));
    // The default configuration, and then with a wingtip in the wind on station.
    let config = CopterGuidanceConfig::default();
    heading::time_legs("leg heading", &config);
    let config = CopterGuidanceConfig { wind_heading_min_mps: 2.0, ..config };
    heading::time_legs("leg heading, wingtip in the wind", &config);
}
