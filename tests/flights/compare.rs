//! Generated flights of every kind through the port's program and through the oracle's, answer by answer.

use oracle_parts::generate::flights::{Flights, KINDS, Kind};

use crate::document::{self, Entry};
use crate::program::Program;
use crate::progress::Progress;

/// The most records of a file of flights that do not end early.
const MOST_RECORDS: u64 = 1_000_000;

/// The least number of files, each with a seed of its own, of such a kind.
const LEAST_FILES: u64 = 3;

/// Of the kinds that do not end early, those that share the records. Flights of kind grid come on top, as many as of each.
const SHARING_KINDS: u64 = 8;

/// Damaged and cut flights end their file. For this many records of all kinds there is one file of each.
const RECORDS_FOR_A_SHORT_FILE: u64 = 4000;

/// What was found of one kind.
#[derive(Default)]
struct Tally {
    files: u64,
    flights: u64,
    records: u64,
    bytes: u64,
    differences: u64,
    /// Of the differences, those in the sign of zeros alone.
    zero_signs: u64,
    digest: u64,
    first: Option<String>,
}

/// How often each answer came: by its number, and a refusal by the refusal's number.
#[derive(Default)]
struct Answers {
    numbers: [u64; 7],
    refusals: [u64; 10],
}

/// Compares on `records` records of the kinds that share them, on an equal share of grid flights, and on short files of the
/// two kinds that end early. Gives whether nothing differed.
pub fn run(port: &Program, records: u64) -> Result<bool, String> {
    let oracle = Program::oracle();
    let mut answers = Answers::default();
    let mut total = Tally::default();
    for (name, kind) in KINDS {
        let mut tally = Tally::default();
        let files = files(kind, records);
        let progress = Progress::new(name, files.iter().map(|(_, records)| records).sum::<u64>(), "records");
        for (seed, records) in files {
            let flight = flight(seed, records, kind);
            let (ours, theirs) = (port.answers(&flight)?, oracle.answers(&flight)?);
            let place = |record: usize| format!("record {record} of 'generate flights {seed} {records} {name}'");
            tally.file(&flight, &ours, &theirs, place);
            answers.count(&ours);
            progress.add(records);
        }
        tally.print(name);
        total.add(&tally);
    }
    answers.print();
    total.print("all");
    Ok(total.differences == 0)
}

/// The seeds of a kind's files and the number of records in each.
fn files(kind: Kind, records: u64) -> Vec<(u64, u64)> {
    if matches!(kind, Kind::Damaged | Kind::Cut) {
        // 5 to 200 records, every length as often.
        return (1..=records.div_ceil(RECORDS_FOR_A_SHORT_FILE)).map(|seed| (seed, 5 + seed * 37 % 196)).collect();
    }
    let share = records.div_ceil(SHARING_KINDS);
    let files = share.div_ceil(MOST_RECORDS).max(LEAST_FILES);
    (1..=files).map(|seed| (seed, share.div_ceil(files))).collect()
}

/// The same bytes as those of the oracle's `generate flights`.
fn flight(seed: u64, records: u64, kind: Kind) -> Vec<u8> {
    let mut flights = Flights::new(seed, kind);
    (0..records).rev().flat_map(|left| flights.next_record(left == 0)).collect()
}

impl Tally {
    /// Takes in the answers of both sides to a file. `place` names a record.
    fn file(&mut self, flight: &[u8], ours: &[u8], theirs: &[u8], place: impl Fn(usize) -> String) {
        self.files += 1;
        self.bytes += ours.len() as u64;
        self.digest = document::digest(self.digest, ours);
        let (mut ours, mut theirs) = (document::answers(ours), document::answers(theirs));
        let mut count = 0;
        for entry in document::entries(flight) {
            let (ours, theirs) = (ours.next().unwrap_or_default(), theirs.next().unwrap_or_default());
            count += 1;
            if ours != theirs {
                self.difference(entry, ours, theirs, &place(count));
            } else if matches!(entry, Entry::Whole([document::CONFIGURE, ..])) && ours == [document::DONE] {
                self.flights += 1;
            }
        }
        self.records += count as u64;
        if ours.next().is_some() || theirs.next().is_some() {
            self.differences += 1;
            self.first.get_or_insert_with(|| format!("  answers go on after {}", place(count)));
        }
    }

    fn difference(&mut self, entry: Entry, ours: &[u8], theirs: &[u8], place: &str) {
        self.differences += 1;
        self.zero_signs += u64::from(only_zero_signs(ours, theirs));
        self.first.get_or_insert_with(|| {
            let record = match entry {
                Entry::Whole(record) => document::hexadecimal(record),
                Entry::NoKind => "a byte that is no kind".into(),
                Entry::Cut => "cut".into(),
            };
            let (ours, theirs) = (document::hexadecimal(ours), document::hexadecimal(theirs));
            format!("  {place}: {record}\n  port:   {ours}\n  oracle: {theirs}")
        });
    }

    fn add(&mut self, other: &Tally) {
        self.files += other.files;
        self.flights += other.flights;
        self.records += other.records;
        self.bytes += other.bytes;
        self.differences += other.differences;
        self.zero_signs += other.zero_signs;
        self.digest = document::digest(self.digest, &other.digest.to_le_bytes());
    }

    fn print(&self, name: &str) {
        let Tally { files, flights, records, bytes, differences, digest, .. } = self;
        println!(
            "{name}: {files} files, {flights} flights, {records} records, {bytes} answer bytes, \
             {differences} differences, digest {digest:016x}"
        );
        if self.zero_signs > 0 {
            println!("  {} of them in the sign of zeros alone", self.zero_signs);
        }
        if let Some(first) = &self.first {
            println!("{first}");
        }
    }
}

/// Whether two answers differ in the sign of zeros alone.
fn only_zero_signs(ours: &[u8], theirs: &[u8]) -> bool {
    let zero = |word: &[u8]| matches!(word, [0, 0, 0, 0 | 0x80]);
    let floats = |answer: &[u8]| match answer.first() {
        Some(&(document::SETPOINT | document::BODY_RATE)) => 16,
        Some(&document::WIND_KNOWN) => 24,
        _ => 0,
    };
    let end = 1 + floats(ours);
    if ours.len() != theirs.len() || ours.len() < end || ours[..1] != theirs[..1] || ours[end..] != theirs[end..] {
        return false;
    }
    let mut words = ours[1..end].chunks_exact(4).zip(theirs[1..end].chunks_exact(4));
    words.all(|(a, b)| a == b || zero(a) && zero(b))
}

impl Answers {
    fn count(&mut self, written: &[u8]) {
        for answer in document::answers(written) {
            if let Some(count) = self.numbers.get_mut(usize::from(answer[0])) {
                *count += 1;
            }
            if let [document::REFUSAL, number @ 0..10, _] = answer {
                self.refusals[usize::from(*number)] += 1;
            }
        }
    }

    fn print(&self) {
        let [_, setpoint, body_rate, _, done, no_wind, wind] = self.numbers;
        println!("answers: {setpoint} attitude, {body_rate} body rate, {done} done, {no_wind} no wind, {wind} wind");
        let refusals: Vec<String> = (1..9).map(|number| format!("{number}: {}", self.refusals[number])).collect();
        println!("refusals by number: {}", refusals.join(", "));
    }
}
