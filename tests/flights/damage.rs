//! Files that are cut, bad or random. What the program has to write is worked out from document 01; the oracle has to
//! write the same, and both have to end with status 0.

use oracle_parts::config;
use oracle_parts::encode::{self, State, Waypoint};

use crate::document::{self, Entry};
use crate::program::Program;
use crate::progress::Progress;
use crate::random::Random;

/// Random files of each sort.
const RANDOM_FILES: u64 = 1000;

/// The two programs, and what was found of one sort of files.
struct Check<'a> {
    port: &'a Program,
    oracle: Program,
    progress: Progress,
    files: u64,
    records: u64,
    differences: u64,
    digest: u64,
    failed: bool,
}

/// Runs all sorts of files. Gives whether nothing differed.
pub fn run(port: &Program) -> Result<bool, String> {
    let mut check = Check {
        port,
        oracle: Program::oracle(),
        progress: progress(""),
        files: 0,
        records: 0,
        differences: 0,
        digest: 0,
        failed: false,
    };
    check.sort("empty file", |check| check.file(&[], Some(&[])))?;
    check.sort("truncations", |check| check.truncations(&flight()))?;
    check.sort("kind bytes", |check| check.kind_bytes(&flight()))?;
    check.sort("fields at their edges", |check| check.file(&fields_at_edges(), None))?;
    check.sort("refusals in their order", |check| check.file(&refusals_in_order(), None))?;
    check.sort("random bytes", |check| check.random_files(random_bytes))?;
    check.sort("random bodies", |check| check.random_files(random_bodies))?;
    check.sort("flights with random bytes in them", |check| check.random_files(flipped_flight))?;
    Ok(!check.failed)
}

fn progress(sort: &str) -> Progress {
    Progress::new(sort, None, "files")
}

impl Check<'_> {
    /// Runs a sort of files, and prints its line.
    fn sort<T>(&mut self, name: &str, files: impl FnOnce(&mut Self) -> Result<T, String>) -> Result<(), String> {
        self.progress = progress(name);
        files(self)?;
        self.print(name);
        Ok(())
    }

    /// Both programs on one file. What they have to write is `expected`, or else what document 01 and the oracle's
    /// numbers give. Gives what the port wrote.
    fn file(&mut self, flight: &[u8], expected: Option<&[u8]>) -> Result<Vec<u8>, String> {
        let place = |error| format!("{error}, on {}", document::hexadecimal(flight));
        let ours = self.port.answers(flight).map_err(place)?;
        let theirs = self.oracle.answers(flight).map_err(place)?;
        let by_document = document::expected(flight, &theirs);
        self.files += 1;
        self.progress.add(1);
        self.records += document::entries(flight).count() as u64;
        self.digest = document::digest(self.digest, &ours);
        if ours != theirs || ours != by_document || expected.is_some_and(|expected| ours != expected) {
            self.differences += 1;
            if self.differences == 1 {
                let [flight, ours, theirs] = [flight, &ours, &theirs].map(document::hexadecimal);
                println!("  file:     {flight}\n  port:     {ours}\n  oracle:   {theirs}");
                println!("  expected: {}", document::hexadecimal(expected.unwrap_or(&by_document)));
            }
        }
        Ok(ours)
    }

    /// A flight cut at each byte: the answers of its whole records, and refusal 6 where a record is cut.
    fn truncations(&mut self, flight: &[u8]) -> Result<(), String> {
        let whole = self.file(flight, None)?;
        for length in 0..flight.len() {
            let cut = &flight[..length];
            let entries: Vec<Entry> = document::entries(cut).collect();
            let ends_whole = matches!(entries.last(), None | Some(Entry::Whole(_)));
            let records = if ends_whole { entries.len() } else { entries.len() - 1 };
            let mut expected: Vec<u8> = document::answers(&whole).take(records).flatten().copied().collect();
            if !ends_whole {
                expected.extend_from_slice(&document::REFUSED_CUT);
            }
            self.file(cut, Some(&expected))?;
        }
        Ok(())
    }

    /// Every byte as the last record's kind, with nothing after it and with a whole body, alone and after a flight. A
    /// byte that is no kind is followed by whole records, which must not be read.
    fn kind_bytes(&mut self, flight: &[u8]) -> Result<(), String> {
        let mut random = Random::new(1);
        for kind in 0..=u8::MAX {
            let body: Vec<u8> = match document::record_bytes(kind) {
                Some(length) => (1..length).map(|_| random.byte()).collect(),
                None => flight.to_vec(),
            };
            for before in [&[], flight] {
                for body in [&[], &body[..]] {
                    self.file(&[before, &[kind], body].concat(), None)?;
                }
            }
        }
        for record in whole_records(flight) {
            for before in [&[], flight] {
                self.file(&[before, record].concat(), None)?;
            }
        }
        Ok(())
    }

    fn random_files(&mut self, make: fn(&mut Random) -> Vec<u8>) -> Result<(), String> {
        for seed in 0..RANDOM_FILES {
            self.file(&make(&mut Random::new(seed)), None)?;
        }
        Ok(())
    }

    fn print(&mut self, sort: &str) {
        let Check { files, records, differences, digest, .. } = self;
        println!("{sort}: files {files}, records {records}, differences {differences}, digest {digest:016x}");
        self.failed |= *differences > 0;
        (self.files, self.records, self.differences, self.digest) = (0, 0, 0, 0);
    }
}

fn whole_records(flight: &[u8]) -> Vec<&[u8]> {
    let whole = |entry| if let Entry::Whole(record) = entry { Some(record) } else { None };
    document::entries(flight).filter_map(whole).collect()
}

/// The Rust's default configuration with drag figures, so that the wind is estimated.
fn configure() -> Vec<u8> {
    let mut fields = config::default_fields();
    fields[41..45].copy_from_slice(&[20.0, 10.0, 0.3, 0.2]);
    encode::configure(&fields)
}

/// Upright, `height` metres up, moving a little.
fn state(height: f32) -> State {
    [1.0, 2.0, height, 0.5, -0.25, 0.125, 0.3, 0.6, 0.0, 1.0, 0.0, 0.0, 0.0, 0.1, 0.75]
}

fn waypoint(dt: f32, velocity_mark: u8, heading_mark: u8) -> Vec<u8> {
    let waypoint = Waypoint {
        position_m: [20.0, -5.0],
        velocity_mark,
        velocity_mps: [0.5, 0.25],
        altitude_m: 6.0,
        cruise_speed_mps: 4.0,
        heading_mark,
        heading_rad: -2.0,
    };
    encode::waypoint(dt, &state(8.0), &waypoint)
}

/// A flight with every kind of record and of answer, all marks, records that are refused and a wind that becomes known.
fn flight() -> Vec<u8> {
    let call = |kind, dt, floats: &[f32]| encode::call(kind, dt, &state(9.0), floats);
    let broken = encode::configure(&[-1.0; config::FIELDS]);
    let records = [
        vec![document::WIND],
        configure(),
        encode::prime(&state(0.0)),
        vec![document::WIND],
        call(document::ATTITUDE, 0.125, &[0.5, 0.1, -0.2, 0.3]),
        waypoint(0.125, 0, 0),
        waypoint(0.125, 1, 0),
        waypoint(0.125, 0, 1),
        waypoint(0.125, 1, 1),
        waypoint(0.125, 2, 1),
        call(document::ABSOLUTE_ATTITUDE, 0.125, &[0.1, 0.2, 3.0, 0.5]),
        vec![document::WIND],
        call(document::LAND, 0.125, &[1.0, 2.0]),
        call(document::LAND, 1.5, &[1.0, 2.0]),
        vec![document::RATE],
        call(document::ABSOLUTE_RATE, 0.125, &[0.1, 0.2, 0.3, 1.5]),
        broken,
        encode::prime(&state(20.0)),
        vec![document::WIND],
    ];
    records.concat()
}

/// The default configuration with each field in turn at values around the limits of its rule.
fn fields_at_edges() -> Vec<u8> {
    let limits = [0.0, f32::MIN_POSITIVE, 0.2, 0.5, 1.0, 1.570_796_4, 3.141_592_7, 1024.0, f32::MAX, f32::INFINITY];
    let mut values = vec![f32::NAN, -f32::NAN];
    for limit in limits {
        values.extend([limit, -limit, limit.next_up(), -limit.next_up(), limit.next_down(), -limit.next_down()]);
    }
    let mut flight = Vec::new();
    for number in 1..=config::FIELDS {
        for value in &values {
            let mut record = configure();
            document::set_float(&mut record, document::field_at(number), *value);
            flight.extend(record);
        }
    }
    flight
}

/// Marks, time steps and headings at and beside their limits, all together, so that the order of the checks shows:
/// first with no craft configured, then with one.
fn refusals_in_order() -> Vec<u8> {
    let shortest = 1.0_f32 / 4096.0;
    let steps = [0.5, shortest, shortest.next_down(), 1.0, 1.0_f32.next_up(), 0.0, -0.5, f32::NAN, f32::INFINITY];
    let headings = [0.0, 1024.0, -1024.0, 1024.0_f32.next_up(), -1024.0_f32.next_up(), f32::NAN, f32::INFINITY];
    let mut records = Vec::new();
    for heading in headings {
        let mut state = state(9.0);
        state[14] = heading;
        records.push(encode::prime(&state));
        for step in steps {
            for (kind, floats) in [(3, 4), (6, 4), (7, 2), (8, 4)] {
                records.push(encode::call(kind, step, &state, &[0.5; 4][..floats]));
            }
            for marks in [[0, 0], [1, 1], [2, 0], [0, 2], [255, 1], [1, 128]] {
                let mut record = waypoint(step, marks[0], marks[1]);
                document::set_float(&mut record, 5 + 56, heading);
                records.push(record);
            }
        }
    }
    let records = records.concat();
    [&records[..], &[document::RATE], &configure(), &records, &[document::RATE]].concat()
}

fn random_bytes(random: &mut Random) -> Vec<u8> {
    (0..random.below(600)).map(|_| random.byte()).collect()
}

/// Records with random bodies, after a configuration half of the time. The step of a call is legal most of the time.
fn random_bodies(random: &mut Random) -> Vec<u8> {
    let mut flight = if random.chance(1, 2) { configure() } else { Vec::new() };
    for _ in 0..random.below(20) {
        let kind = 1 + random.below(9) as u8;
        let mut record: Vec<u8> = (0..document::record_bytes(kind).expect("a kind")).map(|_| random.byte()).collect();
        record[0] = kind;
        if document::is_call(&record) && random.chance(7, 8) {
            let step = random.between(1.0 / 4096.0, 1.0);
            document::set_float(&mut record, 1, step);
        }
        if kind == document::WAYPOINT && random.chance(7, 8) {
            document::MARKS.iter().for_each(|at| record[*at] &= 1);
        }
        flight.extend(record);
    }
    let kept = flight.len() - random.below(3).min(flight.len());
    flight.truncate(kept);
    flight
}

/// A flight with one to five bytes replaced anywhere, kind bytes too.
fn flipped_flight(random: &mut Random) -> Vec<u8> {
    let mut flight = flight();
    for _ in 0..1 + random.below(5) {
        let at = random.below(flight.len());
        flight[at] = if random.chance(1, 4) { random.below(12) as u8 } else { random.byte() };
    }
    flight
}
