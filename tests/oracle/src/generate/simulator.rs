//! A crude craft: a point mass that leans as it is told, thrusts, and is pushed by the wind.

use super::random::Random;
use super::values::quaternion;
use crate::encode::State;

const GRAVITY_MPS2: f32 = 9.806_65;

/// The craft and the air around it. Axes are north, east, up.
pub struct Simulator {
    pub position_m: [f32; 3],
    velocity_mps: [f32; 3],
    acceleration_mps2: [f32; 3],
    roll_rad: f32,
    pitch_rad: f32,
    heading_rad: f32,
    yaw_radps: f32,
    wind_mps: [f32; 2],
    drag_per_s: f32,
    ground_m: f32,
    /// The thrust at which this craft hovers, which its configuration may have wrong.
    hover_thrust: f32,
    /// How fast it can turn, in rad/s. A craft held off by its fin hardly turns.
    most_yaw_radps: f32,
    /// The size of the noise on what it measures of itself.
    noise: f32,
}

impl Simulator {
    pub fn new(random: &mut Random, hover_thrust: f32) -> Self {
        let ground_m = random.between(-20.0, 20.0);
        let calm = random.chance(1, 4);
        let wind_mps = [(); 2].map(|_| if calm { 0.0 } else { random.between(-5.0, 5.0) });
        Simulator {
            position_m: [random.between(-20.0, 20.0), random.between(-20.0, 20.0), ground_m],
            velocity_mps: [0.0; 3],
            acceleration_mps2: [0.0; 3],
            roll_rad: 0.0,
            pitch_rad: 0.0,
            heading_rad: random.between(-3.1, 3.1),
            yaw_radps: 0.0,
            wind_mps,
            drag_per_s: random.between(0.05, 0.6),
            ground_m,
            hover_thrust: hover_thrust * random.between(0.9, 1.1),
            most_yaw_radps: if random.chance(1, 3) { 0.02 } else { 2.0 },
            noise: random.pick(&[0.0, 0.01, 0.1]),
        }
    }

    /// Its state as it measures it, in the order of a record.
    pub fn state(&self, random: &mut Random) -> State {
        let mut state = [0.0; 15];
        state[..3].copy_from_slice(&self.position_m);
        state[3..6].copy_from_slice(&self.velocity_mps);
        state[6..9].copy_from_slice(&self.acceleration_mps2);
        for word in &mut state[..9] {
            *word += random.between(-self.noise, self.noise);
        }
        let attitude = quaternion(self.roll_rad, self.pitch_rad, self.heading_rad);
        state[9..13].copy_from_slice(&attitude);
        state[13] = self.yaw_radps;
        state[14] = self.heading_rad;
        state
    }

    /// Leans and turns toward an attitude. What is not finite is not followed.
    pub fn follow_attitude(&mut self, dt: f32, roll: f32, pitch: f32, heading: f32, thrust: f32) {
        let share = (dt / 0.15).min(1.0);
        let lean = |from: f32, to: f32| from + (to.clamp(-1.2, 1.2) - from) * share;
        if roll.is_finite() && pitch.is_finite() {
            self.roll_rad = lean(self.roll_rad, roll);
            self.pitch_rad = lean(self.pitch_rad, pitch);
        }
        let error = wrapped(heading - self.heading_rad);
        let yaw = (error / 0.3).clamp(-self.most_yaw_radps, self.most_yaw_radps);
        self.turn(dt, if yaw.is_finite() { yaw } else { 0.0 });
        self.fly(dt, thrust);
    }

    /// Turns at body rates. What is not finite is not followed.
    pub fn follow_rates(&mut self, dt: f32, rates: [f32; 3], thrust: f32) {
        let [roll, pitch, yaw] =
            rates.map(|r| if r.is_finite() { r.clamp(-3.0, 3.0) } else { 0.0 });
        self.roll_rad = (self.roll_rad + roll * dt).clamp(-1.5, 1.5);
        self.pitch_rad = (self.pitch_rad + pitch * dt).clamp(-1.5, 1.5);
        self.turn(dt, yaw);
        self.fly(dt, thrust);
    }

    fn turn(&mut self, dt: f32, yaw_radps: f32) {
        self.yaw_radps = yaw_radps;
        self.heading_rad = wrapped(self.heading_rad + yaw_radps * dt);
    }

    /// Moves for a step under its thrust, gravity, the air and the ground.
    fn fly(&mut self, dt: f32, thrust: f32) {
        let thrust = if thrust.is_finite() { thrust.clamp(0.0, 1.0) } else { 0.0 };
        let push_mps2 = thrust / self.hover_thrust * GRAVITY_MPS2;
        let [w, i, j, k] = quaternion(self.roll_rad, self.pitch_rad, self.heading_rad);
        let down = [2.0 * (w * j + i * k), 2.0 * (j * k - w * i), w * w - i * i - j * j + k * k];
        let air_mps = [self.wind_mps[0], self.wind_mps[1], 0.0];
        let mut acceleration = [0.0; 3];
        for axis in 0..3 {
            let lift = if axis == 2 {
                down[2] * push_mps2 - GRAVITY_MPS2
            } else {
                -down[axis] * push_mps2
            };
            acceleration[axis] = lift - self.drag_per_s * (self.velocity_mps[axis] - air_mps[axis]);
            let velocity = self.velocity_mps[axis] + acceleration[axis] * dt;
            self.velocity_mps[axis] = velocity.clamp(-25.0, 25.0);
            self.position_m[axis] += self.velocity_mps[axis] * dt;
        }
        self.acceleration_mps2 = acceleration;
        if self.position_m[2] <= self.ground_m {
            self.position_m[2] = self.ground_m;
            self.velocity_mps = [0.0; 3];
            self.acceleration_mps2 = [0.0; 3];
        }
    }

    pub fn height_m(&self) -> f32 {
        self.position_m[2] - self.ground_m
    }
}

/// An angle between -pi and pi.
fn wrapped(angle: f32) -> f32 {
    stable_flight::wrap_angle(angle)
}
