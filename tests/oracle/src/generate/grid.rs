//! Flights most of whose numbers lie on a coarse dyadic grid: small multiples of 1/8, 1/4 or 1/2, and
//! time steps that are powers of two, or 0.1 and 0.2 which add up to a wind window's period. Sums and
//! products of such numbers are exact, so that comparisons are met at equality: the divider's
//! period, a leg of the least length, a limit reached and not passed. Other numbers stand among
//! them: 0.7 and 1.3 for products that round, the largest and very small ones, 1e20, and limits
//! that are worked out to be met, by an arctangent for instance.
//!
//! Nothing is simulated here. The state stays as it is for some calls, and then parts of it are
//! drawn anew.

use std::ops::Range;

use super::random::Random;
use crate::config::{FIELDS, Fields};
use crate::encode::{self, State, Waypoint};
use crate::records;

const GRAVITY_MPS2: f32 = 9.806_65;

const LEVEL: [f32; 4] = [1.0, 0.0, 0.0, 0.0];

/// Other attitudes: leaning, on the side, upside down, not of size 1, and leaning by as much as the
/// wind filter takes.
const ATTITUDES: [[f32; 4]; 8] = [
    [0.5, 0.5, 0.5, 0.5],
    [0.0, 1.0, 0.0, 0.0],
    [0.75, 0.5, 0.0, 0.0],
    [0.75, 0.0, 0.5, 0.25],
    [1.0, 0.0, 0.0, 0.5],
    [0.875, 0.25, 0.25, 0.0],
    [0.968_75, 0.125, 0.125, 0.0],
    [STEEPEST_W, 0.0, 0.0, 0.125],
];

/// Its square and 1/8 squared add up to the f32 of the root of 1/2.
const STEEPEST_W: f32 = f32::from_bits(0x3F54_E0B6);

/// The choices of each field but those that `fields` works out. Some stand more than once, to come
/// more often.
const FIELD_CHOICES: [&[f32]; FIELDS] = [
    &[0.0, 0.5, 1.0, 1.0, 2.0, 0.7],                      // 1 altitude p
    &[0.0, 0.0, 0.25, 0.5],                               // 2 altitude i
    &[0.0, 0.5, 1.0, 2.0],                                // 3 altitude d
    &[0.0, 0.5, 1.0, 4.0],                                // 4 altitude max integral
    &[0.5, 0.5, 0.25, 0.75, 1.0],                         // 5 hover thrust
    &[0.0, 0.25, 0.5, 1.0, 2.0],                          // 6 integration band
    &[0.0, 0.5, 1.0, 1.0, 2.0, 0.7],                      // 7 position p
    &[1.0, 1.0, 0.5, 2.0, 0.0, -1.0],                     // 8 velocity p
    &[0.0, 0.0, 0.25, 0.5, -0.5],                         // 9 velocity i
    &[0.0, 0.0, 0.25, 0.015_625],                         // 10 velocity d
    &[0.0, 0.5, 1.0, 4.0],                                // 11 lateral max integral
    &[0.0, 0.0, 0.5, 1.0, 2.0, SMALLEST],                 // 12 max accel
    &[0.0, 0.5, 1.0, 2.0, 1.3],                           // 13 brake
    &[1.0, 0.5, 0.75, 0.25, 0.7],                         // 14 braking share
    &[0.0],                                               // 15 navigation period
    &[0.0, 0.25, 0.5, 1.0],                               // 16 stick angle x
    &[0.0, 0.25, 0.5, 1.0],                               // 17 stick angle y
    &[0.0, 0.5, 1.0, 2.0],                                // 18 stick yaw rate
    &[0.0, 0.0625, 0.125, 0.25],                          // 19 idle throttle
    &[0.0],                                               // 20 max tilt
    &[0.25, 0.5, 1.0, 2.0],                               // 21 max descent
    &[0.25, 0.5, 1.0, 2.0, 1.3, f32::MAX],                // 22 descent accel
    &[0.5, 1.0, 2.0, 4.0],                                // 23 climb decel
    &[0.25, 0.5, 1.0, 2.0],                               // 24 altitude leash
    &[0.25, 0.5, 1.0],                                    // 25 land speed
    &[0.0, 0.25, 0.5, 1.0, 2.0],                          // 26 waypoint yaw rate
    &[0.25, 0.5, 1.0, 2.0],                               // 27 heading rate
    &[0.0, 1.0, 2.0, 2.5, 3.0, 5.0],                      // 28 least leg
    &[0.0, 0.25, 0.5, 1.0],                               // 29 yield angle
    &[0.0, 0.25, 0.5, 1.0],                               // 30 yield rate
    &[0.0],                                               // 31 yield time
    &[0.0, 1.0, 2.0, 2.5, 5.0],                           // 32 least wind
    &[0.0, 0.25, 0.5, 1.0, HALF_TURN / 2.0, HALF_TURN],   // 33 angle from the wind
    &[0.0, 0.25, 0.5, 1.0],                               // 34 most spread of its direction
    &[0.0],                                               // 35 deadband
    &[0.0, 0.5, 1.0, 2.0],                                // 36 airborne height
    &[0.0, 0.5, 1.0],                                     // 37 hold band
    &[0.0, 0.125, 0.25, 0.5],                             // 38 min thrust
    &[0.0, 0.5, 1.0, 2.0],                                // 39 sink limit
    &[0.0, 0.125, 0.25, 0.5],                             // 40 sink gain
    &[0.25, 0.5, 0.75, 1.0],                              // 41 max boost thrust
    &[0.0, 0.0, 0.0, 1.0, 2.0, 16.0],                     // 42 ballistic x
    &[0.0, 0.0, 0.0, 1.0, 2.0, 16.0],                     // 43 ballistic y
    &[0.0, 0.25, 0.5, 1.0, 1.0, 0.000_488_281_25, FAINT], // 44 momentum x
    &[0.0, 0.25, 0.5, 1.0, 1.0, 0.000_488_281_25, FAINT], // 45 momentum y
    &[0.0, 0.0, 0.25, 0.5, 1.0],                          // 46 force noise
    &[0.0, 0.0, 0.5, 1.0],                                // 47 process noise
    &[0.0, 1.0, 2.0, 8.0],                                // 48 initial deviation
    &[0.0, 1.0, 2.0, 5.0, 5.0, 1e20],                     // 49 gate
    &[0.0, 0.5, 1.0, 2.0, 2.0],                           // 50 most axial speed
];

/// A drag so faint that its square is 0.
const FAINT: f32 = 1e-25;

/// The smallest float above 0.
const SMALLEST: f32 = f32::from_bits(1);

const HALF_TURN: f32 = std::f32::consts::PI;

/// Fields, by their number, and values at and beside the ends of their rule.
const RULE_ENDS: [(&[usize], &[f32]); 7] = [
    (&[14, 41, 5], &[0.0, SMALLEST, 1.0, ABOVE_ONE]),
    (&[20], &[0.0, SMALLEST, HALF_TURN / 2.0, BELOW_QUARTER_TURN]),
    (&[21, 22, 23, 24, 27], &[0.0, SMALLEST, f32::MAX]),
    (&[25], &[0.2, 0.200_000_02, f32::MAX]),
    (&[19, 38], &[0.0, -0.0, -SMALLEST, 1.0, BELOW_ONE]),
    (&[33], &[0.0, -0.0, -SMALLEST, HALF_TURN, ABOVE_HALF_TURN]),
    (
        &[7, 11, 12, 13, 15, 16, 17, 18, 26, 28, 29, 30, 31, 32, 34, 35, 36, 37, 39, 40],
        &[0.0, -0.0, -SMALLEST],
    ),
];

const BELOW_ONE: f32 = f32::from_bits(0x3F7F_FFFF);
const ABOVE_ONE: f32 = f32::from_bits(0x3F80_0001);
const BELOW_QUARTER_TURN: f32 = f32::from_bits(0x3FC9_0FDA);
const ABOVE_HALF_TURN: f32 = f32::from_bits(0x4049_0FDC);

/// What is called for a while.
enum Task {
    Waypoint(Waypoint),
    /// A call of kind 3, 6, 7 or 8, and the floats of its command.
    Other(u8, Vec<f32>),
}

/// Makes one record after the other.
pub struct Grid {
    /// Records until the next flight.
    records_left: usize,
    fields: Fields,
    dt: f32,
    state: State,
    task: Task,
    /// Calls until the next task.
    calls_left: usize,
    /// Whether a priming is due, right after the configuration.
    primes: bool,
    /// Whether every step closes a wind window and the wind is measured without noise, so that it
    /// lies on the grid too.
    windy: bool,
}

impl Grid {
    pub fn new() -> Self {
        Grid {
            records_left: 0,
            fields: [0.0; FIELDS],
            dt: 0.0,
            state: [0.0; 15],
            task: Task::Other(records::LAND, vec![0.0, 0.0]),
            calls_left: 0,
            primes: false,
            windy: false,
        }
    }

    pub fn next_record(&mut self, random: &mut Random) -> Vec<u8> {
        if self.records_left == 0 {
            return self.begin_flight(random);
        }
        self.records_left -= 1;
        if self.primes {
            self.primes = false;
            return encode::prime(&self.state);
        }
        match random.below(200) {
            0..=19 => vec![records::WIND],
            20 | 21 => encode::configure(&self.edged(random)),
            22..=24 => {
                self.move_on(random);
                encode::prime(&self.state)
            }
            _ => self.call(random),
        }
    }

    fn begin_flight(&mut self, random: &mut Random) -> Vec<u8> {
        self.records_left = random.pick(&[20, 100, 500]);
        self.dt = random.pick(&[
            1.0,
            0.5,
            0.25,
            0.125,
            0.0625,
            0.0625,
            0.031_25,
            0.015_625,
            0.007_812_5,
            0.2,
            0.1,
        ]);
        self.fields = fields(random, self.dt);
        self.windy = random.chance(1, 3);
        if self.windy {
            self.dt = random.pick(&[0.25, 0.5, 0.2]);
            self.fields = windy_fields(random, self.dt);
        }
        self.state = state(random);
        self.calls_left = 0;
        self.primes = random.chance(7, 8);
        encode::configure(&self.fields)
    }

    /// The configuration with a value of one field that its rule just takes or just refuses.
    fn edged(&self, random: &mut Random) -> Fields {
        let mut fields = self.fields;
        let (numbers, values) = random.pick(&RULE_ENDS);
        let value = if random.chance(1, 8) {
            random.pick(&[f32::INFINITY, f32::NAN])
        } else {
            random.pick(values)
        };
        fields[random.pick(numbers) - 1] = value;
        fields
    }

    /// The value of a field by its number.
    fn field(&self, number: usize) -> f32 {
        self.fields[number - 1]
    }

    fn call(&mut self, random: &mut Random) -> Vec<u8> {
        if self.calls_left == 0 {
            self.calls_left = random.pick(&[1, 3, 10, 40]);
            self.move_on(random);
            self.task = self.next_task(random);
        } else if random.chance(1, 3) {
            self.move_on(random);
        }
        self.calls_left -= 1;
        let dt = if random.chance(1, 16) { self.dt / 2.0 } else { self.dt };
        match &self.task {
            Task::Waypoint(waypoint) => encode::waypoint(dt, &self.state, waypoint),
            Task::Other(kind, floats) => encode::call(*kind, dt, &self.state, floats),
        }
    }

    /// Draws some parts of the state anew. In wind, what the wind is measured from is one part.
    fn move_on(&mut self, random: &mut Random) {
        let mut drawn = state(random);
        let parts: &[Range<usize>] = if self.windy {
            &[0..2, 2..3, 3..13, 13..14, 14..15]
        } else {
            &[0..2, 2..3, 3..5, 5..6, 6..9, 9..13, 13..14, 14..15]
        };
        if self.windy && random.chance(1, 2) {
            // A wind along one axis, seen from a level craft.
            let axis = random.below(2);
            (drawn[3 + axis], drawn[6 + axis]) = (0.0, 0.0);
            drawn[9..13].copy_from_slice(&LEVEL);
        }
        for part in parts {
            if random.chance(1, 3) {
                self.state[part.clone()].copy_from_slice(&drawn[part.clone()]);
            }
        }
    }

    /// Half of the time a leg or a hold.
    fn next_task(&mut self, random: &mut Random) -> Task {
        let thrust = self.thrust(random);
        let sticks = [(); 3].map(|_| multiple(random, 0.25, 5));
        let heading = self.command_heading(random);
        match random.below(10) {
            0..=4 => Task::Waypoint(self.leg(random)),
            5 | 6 => Task::Other(records::LAND, vec![self.state[0], self.state[1]]),
            7 => Task::Other(records::ATTITUDE, vec![thrust, sticks[0], sticks[1], sticks[2]]),
            8 => {
                Task::Other(records::ABSOLUTE_ATTITUDE, vec![sticks[0], sticks[1], heading, thrust])
            }
            _ => Task::Other(records::ABSOLUTE_RATE, vec![sticks[0], sticks[1], sticks[2], thrust]),
        }
    }

    /// A throttle or thrust: of the grid, or one of the limits.
    fn thrust(&self, random: &mut Random) -> f32 {
        match random.below(6) {
            0 => self.field(19),
            1 => self.field(38),
            2 => random.pick(&[0.0, 1.0]),
            _ => multiple(random, 0.0625, 18),
        }
    }

    fn command_heading(&self, random: &mut Random) -> f32 {
        if random.chance(1, 8) { f32::NAN } else { heading(random) }
    }

    /// A waypoint on the grid, or as far away as where the speed of approach stops growing with the
    /// distance.
    fn leg(&mut self, random: &mut Random) -> Waypoint {
        let [x, y, z] = [self.state[0], self.state[1], self.state[2]];
        let mut waypoint = Waypoint {
            position_m: [
                x + multiple(random, 0.5, 6),
                y + random.pick(&[0.0, 0.0, 1.5, -2.0, 4.0, -3.0]),
            ],
            velocity_mark: random.chance(1, 4).into(),
            velocity_mps: [(); 2].map(|_| multiple(random, 0.5, 4)),
            altitude_m: z + multiple(random, 0.5, 6),
            cruise_speed_mps: random.pick(&[0.0, 0.5, 1.0, 2.0, 4.0]),
            heading_mark: random.chance(1, 6).into(),
            heading_rad: self.command_heading(random),
        };
        if random.chance(1, 6) {
            let [accel_mps2, brake_mps2, share] = [12, 13, 14].map(|number| self.field(number));
            let decel_mps2 = if accel_mps2 > 0.0 { share * accel_mps2 } else { brake_mps2 };
            let linear_m = decel_mps2 / (self.field(7) * self.field(7));
            waypoint.position_m = [linear_m, y];
            self.state[0] = 0.0;
        }
        if random.chance(1, 6) {
            waypoint.altitude_m = -(self.field(22) / (self.field(1) * self.field(1)));
            self.state[2] = 0.0;
        }
        waypoint
    }
}

/// A multiple of `unit` of either sign, at most `most` times as large.
fn multiple(random: &mut Random, unit: f32, most: usize) -> f32 {
    (random.below(2 * most + 1) as f32 - most as f32) * unit
}

/// A heading whose wrap is exact, or due south.
fn heading(random: &mut Random) -> f32 {
    match random.below(8) {
        0..=2 => 0.0,
        3 => HALF_TURN,
        _ => (random.below(16) as f32 - 12.0) * 0.25,
    }
}

/// Words 0 to 2 are the position, 3 to 5 the velocity, 6 to 8 the acceleration, 9 to 12 the
/// attitude, 13 the yaw rate and 14 the heading.
fn state(random: &mut Random) -> State {
    let mut state = [0.0; 15];
    for (word, most) in state.iter_mut().zip([6, 6, 8, 4, 4, 4]) {
        *word = multiple(random, 0.5, most);
    }
    for word in &mut state[6..8] {
        *word = random.pick(&[0.0, 0.0, 0.5, -0.5, 1.0, -1.0, 2.0, -2.0]);
    }
    let attitude = if random.chance(5, 8) { LEVEL } else { random.pick(&ATTITUDES) };
    state[9..13].copy_from_slice(&attitude);
    state[13] = multiple(random, 0.25, 4);
    state[14] = heading(random);
    state
}

/// A configuration on the grid. Times are multiples of the step or half of it; the most tilt is one
/// that an acceleration on the grid asks for, the deadband one that lies between two winds along
/// the axes.
fn fields(random: &mut Random, dt: f32) -> Fields {
    let mut fields = FIELD_CHOICES.map(|choices| random.pick(choices));
    let mut set = |number: usize, value: f32| fields[number - 1] = value;
    set(15, dt * random.pick(&[0.0, 1.0, 1.5, 2.0, 2.5, 3.0, 4.5]));
    set(20, lean(random.pick(&[0.25, 0.5, 1.0, 1.0, 2.0, 3.0, 4.0])));
    set(31, dt * random.pick(&[0.0, 1.0, 2.0, 3.0, 4.0]));
    let turn_rad = turned(random, fields[33 - 1]);
    fields[35 - 1] = random.pick(&[0.0, 0.25, turn_rad]);
    fields
}

/// The same with a wind filter that takes each sample as it is.
fn windy_fields(random: &mut Random, dt: f32) -> Fields {
    let mut fields = fields(random, dt);
    let mut set = |number: usize, value: f32| fields[number - 1] = value;
    set(32, random.pick(&[1.0, 2.0, 2.5, 5.0]));
    set(42, 0.0);
    set(43, 0.0);
    set(44, random.pick(&[0.25, 0.5, 1.0]));
    set(45, random.pick(&[0.25, 0.5, 1.0]));
    set(46, 0.0);
    set(47, random.pick(&[0.5, 1.0]));
    set(48, random.pick(&[1.0, 8.0]));
    set(49, random.pick(&[2.0, 5.0, 1e20]));
    set(50, 2.0);
    fields
}

/// The size of the tilt that an acceleration asks for, worked out as guidance does.
fn lean(accel_mps2: f32) -> f32 {
    accel_mps2 * (libm::atanf(accel_mps2 / GRAVITY_MPS2) / accel_mps2)
}

/// How far apart the headings are that winds along two of the axes ask for, worked out as guidance
/// does.
fn turned(random: &mut Random, from_wind_rad: f32) -> f32 {
    let side = random.pick(&[1.0, -1.0]);
    let wingtips = [(); 2].map(|_| {
        let [x, y] = random.pick(&[[1.0, 0.0], [-1.0, 0.0], [0.0, 1.0], [0.0, -1.0]]);
        stable_flight::wrap_angle(libm::atan2f(y, x) + side * (HALF_TURN - from_wind_rad))
    });
    stable_flight::wrap_angle(wingtips[1] - wingtips[0]).abs()
}
