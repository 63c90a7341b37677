//! A wind update and a step of the leg's heading, timed beside the Rust's: the flights, and both sides' calls.
//!
//! Both sides make structs of a call's numbers. The port's memory is numbers too, which each call makes structs of and back,
//! and it pays for that; the Rust keeps its memory, and for the leg's heading its configuration, in structs of its own.

use std::hint::black_box;

use oracle_parts::words::Writer;
use oracle_parts::{config, memory};
use stable_flight::estimation::wind::{WindConfig, WindEstimate};
use stable_flight::guidance::copter::{CopterGuidance, CopterGuidanceConfig};
use stable_flight::nalgebra::{Matrix2, Quaternion, UnitQuaternion};
use stable_flight::{Vec2, Vec3, VehicleState, WaypointCommand};

use crate::timing;

const PASSES: usize = 50;
const DT: f32 = 0.015625;

/// Steps between two estimates of the wind, which are 0.2 s apart, and between two waypoints.
const WINDOW: usize = 13;
const LEG: usize = 256;

// The port, from the static library of crates/control_c.
unsafe extern "C" {
    safe fn tarragonhoe_wind(memory: &mut [f32; 19], ticks: &mut u32, call: &[f32; 11], state: &[f32; 15]);
    safe fn tarragonhoe_leg_heading(memory: &mut [f32; 18], call: &[f32; 23], state: &[f32; 15]) -> f32;
}

/// The numbers of a call, as crates/control_c has them, and the vehicle's state.
pub struct Call<const N: usize> {
    numbers: [f32; N],
    state: [f32; 15],
}

// What the Rust takes in their place.
impl<const N: usize> Call<N> {
    fn vehicle_state(&self) -> VehicleState {
        let s = &self.state;
        VehicleState {
            position_m: Vec3::new(s[0], s[1], s[2]),
            velocity_mps: Vec3::new(s[3], s[4], s[5]),
            acceleration_mps2: Vec3::new(s[6], s[7], s[8]),
            attitude: UnitQuaternion::new_unchecked(Quaternion::new(s[9], s[10], s[11], s[12])),
            angular_velocity_radps: Vec3::new(0.0, 0.0, s[13]),
            heading_rad: s[14],
            ..Default::default()
        }
    }
}

impl Call<11> {
    fn config(&self) -> WindConfig {
        let w = &self.numbers;
        WindConfig {
            ballistic_kgpm2: Vec2::new(w[0], w[1]),
            momentum_per_s: Vec2::new(w[2], w[3]),
            force_noise_mps2: w[4],
            process_noise_mps_per_rt_s: w[5],
            initial_sd_mps: w[6],
            gate_sigma: w[7],
            max_axial_speed_mps: w[8],
        }
    }
}

impl Call<23> {
    fn waypoint(&self) -> WaypointCommand {
        let w = &self.numbers;
        WaypointCommand {
            position_m: Vec2::new(w[12], w[13]),
            heading_rad: (w[14] != 0.0).then_some(w[15]),
            ..Default::default()
        }
    }

    fn wind(&self) -> Option<WindEstimate> {
        let w = &self.numbers;
        let velocity_mps = Vec2::new(w[17], w[18]);
        let covariance_m2ps2 = Matrix2::from_fn(|row, column| w[19 + 2 * row + column]);
        (w[16] != 0.0).then_some(WindEstimate { velocity_mps, covariance_m2ps2 })
    }
}

/// Numbers of the port's memory as the oracle's words. A flag is 0 or 1, and all NaNs are alike.
fn put(numbers: &[f32], flags: &[usize], out: &mut Writer) {
    for (place, &number) in numbers.iter().enumerate() {
        if flags.contains(&place) { out.whole(number as u32) } else { out.float(number) }
    }
}

pub fn time_wind(name: &str, calls: &[Call<11>]) {
    // Primed on the ground, at altitude 0.
    let (mut numbers, mut ticks) = ([0.0; 19], 0);
    numbers[17] = 1.0;
    let mut wind = CopterGuidance::open_hover_wind();
    wind.prime(1.0, &VehicleState::default());
    let mut windows = 0;
    for call in calls {
        tarragonhoe_wind(&mut numbers, &mut ticks, &call.numbers, &call.state);
        wind.update(call.numbers[10], &call.config(), call.numbers[9], &call.vehicle_state());
        let (mut ours, mut theirs) = (Writer::default(), Writer::default());
        put(&numbers[..8], &[0], &mut ours);
        ours.whole(ticks);
        put(&numbers[8..], &[9], &mut ours);
        memory::hover_wind(wind.memory(), &mut theirs);
        assert_eq!(ours.bytes, theirs.bytes);
        windows += usize::from(ticks == 0);
    }
    assert!(windows >= calls.len() / (WINDOW + 1));
    let port = |call: &Call<11>| {
        let Call { numbers: w, state } = black_box(call);
        tarragonhoe_wind(black_box(&mut numbers), &mut ticks, w, state);
    };
    let reference = |call: &Call<11>| {
        let call = black_box(call);
        black_box(&mut wind).update(call.numbers[10], &call.config(), call.numbers[9], &call.vehicle_state());
    };
    timing::compare(name, calls, PASSES, port, reference);
}

pub fn time_legs(name: &str, config: &CopterGuidanceConfig) {
    let calls = legs(config);
    let (mut numbers, mut heading) = ([0.0; 18], CopterGuidance::open_leg_heading());
    for call in &calls {
        let Call { numbers: w, state } = call;
        let (mut ours, mut theirs) = (Writer::default(), Writer::default());
        ours.float(tarragonhoe_leg_heading(&mut numbers, w, state));
        put(&numbers, &[0, 3, 6, 7, 9, 11], &mut ours);
        let (waypoint, wind, state) = (call.waypoint(), call.wind(), call.vehicle_state());
        theirs.float(heading.target_rad(w[10], config, w[11], &waypoint, wind.as_ref(), &state));
        memory::leg_heading(heading.memory(), &mut theirs);
        assert_eq!(ours.bytes, theirs.bytes);
    }
    let port = |call: &Call<23>| {
        let Call { numbers: w, state } = black_box(call);
        black_box(tarragonhoe_leg_heading(black_box(&mut numbers), w, state));
    };
    let reference = |call: &Call<23>| {
        let call = black_box(call);
        let (w, waypoint, wind, state) = (&call.numbers, call.waypoint(), call.wind(), call.vehicle_state());
        black_box(black_box(&mut heading).target_rad(w[10], config, w[11], &waypoint, wind.as_ref(), &state));
    };
    timing::compare(name, &calls, PASSES, port, reference);
}

/// A hover 10 m above the ground, leaning into a wind: small tilts, speeds and accelerations, and drag on both axes.
pub fn hover(dt: f32) -> Vec<Call<11>> {
    let wind = WindConfig {
        ballistic_kgpm2: Vec2::new(20.0, 15.0),
        momentum_per_s: Vec2::new(0.2, 0.3),
        ..Default::default()
    };
    let fields = config::to_fields(&CopterGuidanceConfig { wind, ..Default::default() });
    let mut numbers = [0.0; 11];
    numbers[..9].copy_from_slice(&fields[41..]);
    numbers[9..].copy_from_slice(&[fields[35], dt]);
    let lists: Vec<_> = (1..=11).map(|seed| timing::inputs(seed, -1.0, 1.0)).collect();
    let at = |step: usize| {
        let noise = |list: usize| lists[list][step];
        let lean = [1.0, 0.04 + 0.03 * noise(9), 0.06 * noise(10), 0.3];
        let attitude = lean.map(|part| part / lean.iter().map(|part| part * part).sum::<f32>().sqrt());
        let mut state = [0.0; 15];
        (0..9).for_each(|place| state[place] = 0.4 * noise(place));
        state[2] += 10.0;
        state[9..13].copy_from_slice(&attitude);
        state
    };
    (0..timing::INPUTS).map(|step| Call { numbers, state: at(step) }).collect()
}

/// A flight at 6 m/s from waypoint to waypoint. Most legs end on station before the next waypoint comes. A call's target is
/// the port's answer to the call before it, and the craft turns after it; on every fourth leg it cannot turn, and yields.
fn legs(config: &CopterGuidanceConfig) -> Vec<Call<23>> {
    let fields = config::to_fields(config);
    let lists: Vec<_> = (1..=4).map(|seed| timing::inputs(seed, -1.0, 1.0)).collect();
    let mut memory = [0.0; 18];
    let (mut here, mut heading_rad, mut target_rad) = (Vec2::zeros(), 0.0, 0.0);
    let mut calls = Vec::new();
    for step in 0..timing::INPUTS {
        let (leg, window) = (step / LEG, step / WINDOW);
        let waypoint = Vec2::new(lists[0][leg], lists[1][leg]) * 16.0;
        let to_m = waypoint - here;
        here += to_m * (6.0 * DT / to_m.norm()).min(1.0);
        let turned = if leg % 4 == 3 { 0.0 } else { 0.1 * (target_rad - heading_rad) };
        heading_rad += turned;
        let wind = [5.0 + 0.1 * lists[2][window], 3.0 + 0.1 * lists[3][window], 0.2, 0.01, 0.01, 0.3];
        let mut call = Call { numbers: [0.0; 23], state: [0.0; 15] };
        call.numbers[..10].copy_from_slice(&fields[25..35]);
        call.numbers[10..14].copy_from_slice(&[DT, target_rad, waypoint.x, waypoint.y]);
        call.numbers[16] = 1.0;
        call.numbers[17..].copy_from_slice(&wind);
        call.state[..3].copy_from_slice(&[here.x, here.y, 10.0]);
        call.state[9] = 1.0;
        call.state[13..].copy_from_slice(&[turned / DT, heading_rad]);
        target_rad = tarragonhoe_leg_heading(&mut memory, &call.numbers, &call.state);
        calls.push(call);
    }
    calls
}
