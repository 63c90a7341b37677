//! Flight files: flights one after the other, each begun by a configuration.
//!
//! Every kind but grid starts from a simulated craft that follows its answers, so that the numbers
//! stay plausible between the records that are disturbed.

use super::disturb;
use super::grid::Grid;
use super::pilot::Pilot;
use super::random::Random;
use super::simulator::Simulator;
use super::values::{self, Source};
use crate::config::Fields;
use crate::craft::Craft;
use crate::encode;
use crate::records::{self, Answer, MIN_STEP_S};

/// What is done to the records of a flight.
#[derive(Clone, Copy, PartialEq)]
pub enum Kind {
    /// Nothing.
    Tame,
    /// Special values in some fields of some records, and in some fields of the configuration.
    Special,
    /// Any bits in every field; the time step and the heading stay legal most of the time.
    Any,
    /// Any size in every field, as in `Any`.
    Wide,
    /// Records that are refused: no craft yet, bad fields, marks, steps, headings, kind 4.
    Refused,
    /// As `Refused`, with flipped bits, and the file ends with a bad kind or a cut record.
    Damaged,
    /// A tame flight whose last record is cut short.
    Cut,
    /// Time steps at the limits and just outside.
    Steps,
    /// A single tame flight under one configuration, however many records it has.
    Long,
    /// Each flight of one of the kinds that do not end the file, but grid.
    Mixed,
    /// Numbers on a coarse dyadic grid, so that comparisons are met at equality.
    Grid,
}

pub const KINDS: [(&str, Kind); 11] = [
    ("tame", Kind::Tame),
    ("special", Kind::Special),
    ("any", Kind::Any),
    ("wide", Kind::Wide),
    ("refused", Kind::Refused),
    ("damaged", Kind::Damaged),
    ("cut", Kind::Cut),
    ("steps", Kind::Steps),
    ("long", Kind::Long),
    ("mixed", Kind::Mixed),
    ("grid", Kind::Grid),
];

const MIXTURE: [Kind; 6] =
    [Kind::Tame, Kind::Special, Kind::Any, Kind::Wide, Kind::Refused, Kind::Steps];

/// Makes one record after the other.
pub struct Flights {
    kind: Kind,
    random: Random,
    /// The kind of the flight under way.
    flight_kind: Kind,
    /// Records until the next flight.
    records_left: usize,
    /// Whether every step of the flight under way is the shortest there is.
    shortest_steps: bool,
    craft: Craft,
    simulator: Simulator,
    pilot: Pilot,
    /// Records that are due before anything else, the last one first.
    waiting: Vec<Vec<u8>>,
    /// What makes the records of kind grid; the craft, simulator and pilot have no part in them.
    grid: Grid,
}

impl Flights {
    pub fn new(seed: u64, kind: Kind) -> Self {
        let mut random = Random::new(seed);
        let simulator = Simulator::new(&mut random, 0.5);
        let pilot = Pilot::new(&mut random, &simulator);
        let mut flights = Flights {
            kind,
            random,
            flight_kind: kind,
            records_left: 0,
            shortest_steps: false,
            craft: Craft::default(),
            simulator,
            pilot,
            waiting: Vec::new(),
            grid: Grid::new(),
        };
        if kind != Kind::Grid {
            flights.begin_flight();
        }
        if matches!(kind, Kind::Refused | Kind::Damaged) {
            flights.fly_before_configuring();
        }
        flights
    }

    /// The next record. The last of a file may be cut short or have a kind that is none.
    pub fn next_record(&mut self, is_last: bool) -> Vec<u8> {
        let mut record = match self.waiting.pop() {
            _ if self.kind == Kind::Grid => self.grid.next_record(&mut self.random),
            Some(record) => record,
            None => self.ordinary_record(),
        };
        if is_last {
            self.end_file(&mut record);
        }
        record
    }

    /// A configuration and, most of the time, a priming.
    fn begin_flight(&mut self) {
        let random = &mut self.random;
        if self.kind == Kind::Mixed {
            self.flight_kind = random.pick(&MIXTURE);
        }
        self.records_left = match self.kind {
            Kind::Long => usize::MAX,
            _ => random.pick(&[20, 200, 1000, 4000]),
        };
        let fields = flight_fields(random, self.flight_kind);
        self.simulator = Simulator::new(random, fields[4].clamp(0.2, 0.8));
        self.pilot = Pilot::new(random, &self.simulator);
        let configure = encode::configure(&fields);
        self.craft.answer(configure[0], &configure[1..]);
        if random.chance(7, 8) {
            let prime = encode::prime(&self.simulator.state(random));
            let prime = self.disturbed(prime);
            self.craft.answer(prime[0], &prime[1..]);
            self.waiting.push(prime);
        }
        self.waiting.push(configure);
        let in_the_air = self.random.chance(1, 4);
        self.shortest_steps = self.flight_kind == Kind::Steps && in_the_air;
        if in_the_air {
            self.simulator.position_m[2] += self.random.between(4.0, 20.0);
        }
    }

    /// At the start of a file: records that meet no craft.
    fn fly_before_configuring(&mut self) {
        for kind in [2, 3, 4, 5, 6, 7, 8, 9] {
            let length = records::body_length(kind).expect("a kind");
            let mut record = vec![kind];
            record.extend((0..length).map(|_| self.random.bits() as u8));
            self.waiting.push(record);
        }
    }

    fn ordinary_record(&mut self) -> Vec<u8> {
        if self.records_left == 0 {
            self.begin_flight();
            return self.waiting.pop().expect("a flight begins with its configuration");
        }
        self.records_left -= 1;
        match self.random.below(400) {
            0..=7 => vec![records::WIND],
            8 => vec![records::RATE],
            9 | 10 => {
                let prime = encode::prime(&self.simulator.state(&mut self.random));
                let prime = self.disturbed(prime);
                self.craft.answer(prime[0], &prime[1..]);
                prime
            }
            _ => self.call(),
        }
    }

    /// A call, and the craft following its answer.
    fn call(&mut self) -> Vec<u8> {
        let (dt, record) = self.pilot.call(&mut self.random, &self.simulator);
        let record = self.disturbed(record);
        match self.craft.answer(record[0], &record[1..]) {
            Answer::Attitude {
                roll_pitch_heading_thrust: [roll, pitch, heading, thrust], ..
            } => {
                self.simulator.follow_attitude(dt, roll, pitch, heading, thrust);
            }
            Answer::BodyRate { rates_thrust: [roll, pitch, yaw, thrust], .. } => {
                self.simulator.follow_rates(dt, [roll, pitch, yaw], thrust);
            }
            _ => {}
        }
        record
    }

    /// A record after what the flight's kind does to it.
    fn disturbed(&mut self, mut record: Vec<u8>) -> Vec<u8> {
        let random = &mut self.random;
        match self.flight_kind {
            Kind::Special if random.chance(1, 4) => {
                let words = random.pick(&[1, 1, 2, 5, 20]);
                disturb::replace_some(random, &mut record, Source::Special, words);
            }
            Kind::Any => disturb::replace_all(random, &mut record, Source::Any),
            Kind::Wide => disturb::replace_all(random, &mut record, Source::Wide),
            Kind::Steps if record[0] != records::PRIME => {
                let step =
                    if self.shortest_steps { MIN_STEP_S } else { disturb::edge_step(random) };
                disturb::set_word(&mut record, 0, step.to_bits());
            }
            Kind::Refused if random.chance(1, 4) => record = disturb::refused(random, record),
            Kind::Damaged if random.chance(1, 4) => {
                record = disturb::refused(random, record);
                record = disturb::flipped(random, record);
            }
            _ => {}
        }
        record
    }

    fn end_file(&mut self, record: &mut Vec<u8>) {
        let cut = match self.kind {
            Kind::Cut => true,
            Kind::Damaged => self.random.chance(1, 2),
            _ => return,
        };
        if cut && record.len() > 1 {
            record.truncate(1 + self.random.below(record.len() - 1));
        } else {
            let bytes: Vec<u8> =
                (0..=u8::MAX).filter(|b| records::body_length(*b).is_none()).collect();
            record[0] = self.random.pick(&bytes);
        }
    }
}

fn flight_fields(random: &mut Random, kind: Kind) -> Fields {
    let (source, part) = match kind {
        Kind::Special => (Source::Special, random.pick(&[0, 1, 3])),
        Kind::Any => (Source::Any, random.pick(&[1, 4, 20])),
        Kind::Wide => (Source::Wide, random.pick(&[1, 4, 20])),
        _ => (Source::Tame, 0),
    };
    values::fields(random, source, part, 20)
}
