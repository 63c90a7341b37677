//! Feeds: a first list, an ending record and a last list; and for each the first list of a twin, which reaches the same
//! wind memory by another way.

use oracle_parts::generate::flights::{Flights, Kind};

use crate::document::{self, ABSOLUTE_ATTITUDE, ABSOLUTE_RATE, ATTITUDE, CONFIGURE, PRIME, WIND};
use crate::random::Random;

/// How the twin comes to the same wind memory.
#[derive(Clone, Copy, PartialEq)]
pub enum Way {
    /// No drag figures. The twin is configured, primed on the remembered ground and called once, by the ending call.
    Off,
    /// The twin's list is the same, with a call of kind 6 in the place of every accepted call.
    Samples,
    /// The twin's list has only the records that the wind memory comes from, each call as one of kind 6.
    Shortest,
    /// The ending record is a priming on the ground. The twin is configured and gets that priming.
    Primed,
}

pub const WAYS: [(&str, Way); 4] =
    [("off", Way::Off), ("samples", Way::Samples), ("shortest", Way::Shortest), ("primed", Way::Primed)];

pub type Records = Vec<Vec<u8>>;

pub struct Feed {
    pub first: Records,
    pub twin: Records,
    pub ending: Vec<u8>,
    pub last: Records,
}

/// Records of generated flights, from which feeds are put together.
pub struct Pool {
    random: Random,
    configures: Records,
    primings: Records,
    /// Calls that a configured craft accepts.
    calls: Records,
    /// All records but accepted configurations, in their order.
    records: Records,
}

/// The kinds of flights that pools come from.
pub const KINDS: [Kind; 8] =
    [Kind::Tame, Kind::Special, Kind::Any, Kind::Wide, Kind::Refused, Kind::Steps, Kind::Mixed, Kind::Long];

const POOL_RECORDS: usize = 400;

/// A list has up to so many parts, and each part up to so many records that follow one another in the pool.
const PARTS: usize = 4;
const PART_RECORDS: usize = 25;

/// The drag figures: with all of them 0 the wind is never estimated.
const DRAG_FIELDS: std::ops::RangeInclusive<usize> = 42..=45;

/// The field with the height above the remembered ground from which a craft is airborne.
const AIRBORNE_HEIGHT_FIELD: usize = 36;

impl Pool {
    pub fn new(seed: u64) -> Self {
        let mut flights = Flights::new(seed, KINDS[seed as usize % KINDS.len()]);
        let mut pool = Pool {
            random: Random::new(seed),
            configures: Vec::new(),
            primings: Vec::new(),
            calls: Vec::new(),
            records: Vec::new(),
        };
        for _ in 0..POOL_RECORDS {
            let record = flights.next_record(false);
            let accepted = document::refusal(&record, true).is_none();
            if accepted && record[0] == CONFIGURE {
                pool.configures.push(record);
                continue;
            }
            if accepted && record[0] == PRIME {
                pool.primings.push(record.clone());
            } else if accepted && document::is_call(&record) {
                pool.calls.push(record.clone());
            }
            pool.records.push(record);
        }
        pool
    }

    pub fn feed(&mut self, way: Way) -> Feed {
        let mut first = vec![self.configure(way)];
        if !self.primings.is_empty() && self.random.chance(7, 8) {
            first.push(self.primings[self.random.below(self.primings.len())].clone());
        }
        self.put_parts(&mut first);
        let memory = WindMemory::after(&first);
        let ending = if way == Way::Primed { self.ending_priming(&memory) } else { self.ending_call() };
        let twin = self.twin(way, &first, &memory);
        let mut last = vec![vec![WIND]];
        self.put_parts(&mut last);
        last.push(vec![WIND]);
        Feed { first, twin, ending, last }
    }

    fn configure(&mut self, way: Way) -> Vec<u8> {
        let mut configure = self.configures[self.random.below(self.configures.len())].clone();
        if way == Way::Off {
            DRAG_FIELDS.for_each(|number| document::set_float(&mut configure, document::field_at(number), 0.0));
        }
        configure
    }

    fn put_parts(&mut self, list: &mut Records) {
        for _ in 0..1 + self.random.below(PARTS) {
            let from = self.random.below(self.records.len());
            let length = 1 + self.random.below(PART_RECORDS);
            list.extend(self.records[from..].iter().take(length).cloned());
        }
    }

    fn some_call(&mut self) -> Vec<u8> {
        self.calls[self.random.below(self.calls.len())].clone()
    }

    /// An accepted call of kind 6 with a finite commanded heading, or of kind 8 with a finite estimated one.
    fn ending_call(&mut self) -> Vec<u8> {
        let call = self.some_call();
        if document::heading_rad(&call).is_finite() && self.random.chance(1, 2) {
            return self.with_command(&call, ABSOLUTE_RATE);
        }
        loop {
            let call = self.with_command(&call, ABSOLUTE_ATTITUDE);
            if document::float(&call, COMMANDED_HEADING_AT).is_finite() {
                return call;
            }
        }
    }

    /// A priming with the state of some call, not above the remembered ground.
    fn ending_priming(&mut self, memory: &WindMemory) -> Vec<u8> {
        let call = self.some_call();
        let mut priming = vec![PRIME];
        priming.extend_from_slice(&call[document::state_at(&call)..][..60]);
        if let Some(ground_m) = memory.ground_m.filter(|_| memory.airborne(&priming)) {
            let at = document::state_at(&priming) + 8;
            document::set_float(&mut priming, at, ground_m - self.random.between(0.0, 5.0));
        }
        priming
    }

    /// A call of kind 3, 6 or 8 with the time step and the state of `call` and a command of any kind of numbers.
    pub fn with_command(&mut self, call: &[u8], kind: u8) -> Vec<u8> {
        let mut record = vec![kind];
        record.extend_from_slice(&call[1..65]);
        for size in [0.5, 0.5, 7.0, 1.0] {
            record.extend_from_slice(&self.random.float(size).to_bits().to_le_bytes());
        }
        record
    }

    /// Sticks in the place of an ending call: the loops are cleared as well, the heading is not set.
    pub fn sticks(&mut self, ending: &[u8]) -> Vec<u8> {
        self.with_command(ending, ATTITUDE)
    }

    fn twin(&mut self, way: Way, first: &Records, memory: &WindMemory) -> Records {
        let mut twin = vec![first[0].clone()];
        match way {
            Way::Off => twin.extend(memory.latched.map(|index| first[index].clone())),
            Way::Samples => {
                for record in &first[1..] {
                    let accepted = document::is_call(record) && document::refusal(record, true).is_none();
                    twin.push(if accepted { self.with_command(record, ABSOLUTE_ATTITUDE) } else { record.clone() });
                }
            }
            Way::Shortest => {
                twin.extend(memory.latched.map(|index| first[index].clone()));
                for index in &memory.samples {
                    twin.push(self.with_command(&first[*index], ABSOLUTE_ATTITUDE));
                }
            }
            Way::Primed => {}
        }
        twin
    }
}

/// Where the commanded heading of a call of kind 6 is.
const COMMANDED_HEADING_AT: usize = 73;

/// What a list of records leaves in the wind memory, as far as it can be told without the estimate itself.
struct WindMemory {
    airborne_height_m: f32,
    /// The remembered ground.
    ground_m: Option<f32>,
    /// The priming that latched the ground and made the estimate fresh: its place in the list.
    latched: Option<usize>,
    /// The calls since then that were above the ground, whose time step and state reached the estimate.
    samples: Vec<usize>,
}

impl WindMemory {
    /// After a list that begins with an accepted configuration and has no other one.
    fn after(list: &Records) -> Self {
        let airborne_height_m = document::float(&list[0], document::field_at(AIRBORNE_HEIGHT_FIELD));
        let mut memory = WindMemory { airborne_height_m, ground_m: None, latched: None, samples: Vec::new() };
        for (index, record) in list.iter().enumerate().skip(1) {
            if document::refusal(record, true).is_some() {
                continue;
            }
            if record[0] == PRIME && !memory.airborne(record) {
                memory.ground_m = Some(document::altitude_m(record)).filter(|ground_m| ground_m.is_finite());
                memory.latched = Some(index);
                memory.samples.clear();
            } else if document::is_call(record) && memory.airborne(record) {
                memory.samples.push(index);
            }
        }
        memory
    }

    /// Whether the state of a priming or a call is above the remembered ground by more than the airborne height.
    fn airborne(&self, record: &[u8]) -> bool {
        self.ground_m.is_some_and(|ground_m| document::altitude_m(record) > ground_m + self.airborne_height_m)
    }
}
