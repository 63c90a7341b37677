//! Decides what a simulated craft is asked to do, and makes the records of it.

use super::random::Random;
use super::simulator::Simulator;
use crate::encode::{self, State, Waypoint};
use crate::records;

/// What is flown for a while.
enum Task {
    Waypoint(Waypoint),
    /// A call of kind 3, 6, 7 or 8, and the floats of its command.
    Other(u8, Vec<f32>),
}

pub struct Pilot {
    task: Task,
    /// Calls until the next task.
    calls_left: usize,
    dt: f32,
    /// Whether the time step differs from call to call.
    uneven: bool,
}

impl Pilot {
    /// A pilot who first takes off.
    pub fn new(random: &mut Random, simulator: &Simulator) -> Self {
        let [x, y, z] = simulator.position_m;
        let take_off = Waypoint {
            position_m: [x, y],
            velocity_mark: 0,
            velocity_mps: [0.0, 0.0],
            altitude_m: z + random.between(3.0, 15.0),
            cruise_speed_mps: 5.0,
            heading_mark: 0,
            heading_rad: 0.0,
        };
        Pilot {
            task: Task::Waypoint(take_off),
            calls_left: 20 + random.below(200),
            dt: random.pick(&[0.004, 0.01, 0.02, 0.02, 0.05, 0.05, 0.1, 1.0 / 64.0, 0.25]),
            uneven: random.chance(1, 4),
        }
    }

    /// The next call: its time step and its record.
    pub fn call(&mut self, random: &mut Random, simulator: &Simulator) -> (f32, Vec<u8>) {
        if self.calls_left == 0 {
            self.task = next_task(random, simulator);
            self.calls_left = 1 + random.below(200);
        }
        self.calls_left -= 1;
        let dt = if self.uneven { self.dt * random.between(0.5, 1.5) } else { self.dt };
        (dt, self.record(dt, &simulator.state(random)))
    }

    fn record(&self, dt: f32, state: &State) -> Vec<u8> {
        match &self.task {
            Task::Waypoint(waypoint) => encode::waypoint(dt, state, waypoint),
            Task::Other(kind, floats) => encode::call(*kind, dt, state, floats),
        }
    }
}

/// Half of the time a leg or a hold; else a landing, sticks, an attitude or rates.
fn next_task(random: &mut Random, simulator: &Simulator) -> Task {
    let [x, y, _] = simulator.position_m;
    let thrust = random.between(-0.1, 1.1);
    let mut within = |size: f32| random.between(-size, size);
    let sticks = [thrust, within(1.1), within(1.1), within(1.1)];
    let attitude = [within(0.5), within(0.5), within(7.0), thrust];
    let rates = [within(1.0), within(1.0), within(1.0), thrust];
    match random.below(10) {
        0..=4 => Task::Waypoint(leg(random, simulator)),
        5 | 6 => Task::Other(records::LAND, vec![x, y]),
        7 => Task::Other(records::ATTITUDE, sticks.to_vec()),
        8 => Task::Other(records::ABSOLUTE_ATTITUDE, attitude.to_vec()),
        _ => Task::Other(records::ABSOLUTE_RATE, rates.to_vec()),
    }
}

/// A waypoint near or far; from low down always a climb.
fn leg(random: &mut Random, simulator: &Simulator) -> Waypoint {
    let [x, y, z] = simulator.position_m;
    let reach = random.pick(&[2.0, 40.0, 40.0]);
    let low = simulator.height_m() < 2.0;
    let mut within = |size: f32| random.between(-size, size);
    Waypoint {
        position_m: [x + within(reach), y + within(reach)],
        velocity_mps: [within(3.0), within(3.0)],
        altitude_m: z + if low { 10.0 } else { within(10.0) - 2.0 },
        heading_rad: within(7.0),
        velocity_mark: random.chance(1, 3).into(),
        heading_mark: random.chance(1, 5).into(),
        cruise_speed_mps: if random.chance(1, 5) { 0.0 } else { random.between(0.5, 10.0) },
    }
}
