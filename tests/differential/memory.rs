//! Feeds the program of crates/steps and the oracle the same flights, and compares the craft's memory after each record word
//! by word.

use std::io::{self, BufReader, Read, Write};
use std::process::ChildStdin;
use std::sync::mpsc::{SyncSender, sync_channel};
use std::thread;

use oracle_parts::craft::Craft;
use oracle_parts::generate::flights::{Flights, KINDS, Kind};
use oracle_parts::memory::{self, CRAFT_WORDS};
use oracle_parts::records::{self, Answer};
use oracle_parts::words::Writer;

use crate::calls::{is_zero, words};
use crate::compare::{finish, program};
use crate::mix::mix;
use crate::pipes::{said, start};
use crate::progress::Progress;

/// Flight files of a kind, from seed 1 on.
const FILES: u64 = 8;

/// Flight files of a kind whose last record ends the flight, and the records of each.
const SHORT_FILES: u64 = 500;
const SHORT_RECORDS: u64 = 40;

/// Records that go to the program at a time. They fit into a pipe together.
const BATCH: u64 = 100;

/// Batches that may wait for their comparison.
const WAITING: usize = 4;

/// The altitude target. Which of two zeros a min or max gives is open by document 01, and by the oracle's README.md only
/// this word of the memory can show it.
const ALTITUDE_TARGET: usize = 9;

/// What was found in the flights of one kind.
#[derive(Default)]
struct Tally {
    records: u64,
    /// The records that are accepted calls.
    calls: u64,
    differences: u64,
    digest: u64,
    first: Option<String>,
}

/// Compares the memory after at least `records` records, split over the kinds that do not end a flight but grid, which gets as
/// many as each of them on top. Prints a line for each kind, and gives whether nothing differed.
pub fn run(command: &[&str], records: u64) -> Result<bool, String> {
    let kinds = KINDS.into_iter().filter(|(_, kind)| *kind != Kind::Long);
    let running = kinds.clone().filter(|(_, kind)| !ends(*kind) && *kind != Kind::Grid).count() as u64;
    let mut total = Tally::default();
    for (name, kind) in kinds {
        let (files, records) =
            if ends(kind) { (SHORT_FILES, SHORT_RECORDS) } else { (FILES, records.div_ceil(running * FILES)) };
        let mut tally = Tally::default();
        let progress = Progress::new(name, files * records, "records");
        for seed in 1..=files {
            compare(command, kind, seed, records, &mut tally).map_err(|error| {
                format!("{} with flight {seed} of kind {name}: {error}{}", command.join(" "), said())
            })?;
            progress.add(records);
        }
        println!("{name}: {}, digest {:016x}", tally.counts(), tally.digest);
        if let Some(first) = &tally.first {
            println!("{first}");
        }
        total.add(&tally);
    }
    println!("all: {}", total.counts());
    Ok(total.differences == 0)
}

/// Whether the last record of a file ends the flight.
fn ends(kind: Kind) -> bool {
    matches!(kind, Kind::Damaged | Kind::Cut)
}

/// Compares one flight file. Both sides start with no craft.
fn compare(command: &[&str], kind: Kind, seed: u64, records: u64, tally: &mut Tally) -> io::Result<()> {
    let (child, stdin, stdout) = start(&mut program(command))?;
    let mut stdout = BufReader::new(stdout);
    let (sender, batches) = sync_channel(WAITING);
    let feeder = thread::spawn(move || feed(stdin, Flights::new(seed, kind), records, sender));
    let mut craft = Craft::default();
    let (mut ours, mut theirs) = ([0; 4 * CRAFT_WORDS], Writer::default());
    for (number, record) in batches.into_iter().flatten().enumerate() {
        tally.calls += u64::from(step(&mut craft, &record));
        theirs.bytes.clear();
        memory::craft(craft.guidance.as_ref(), &mut theirs);
        stdout.read_exact(&mut ours)?;
        tally.memory(&ours, &theirs.bytes, || format!("record {number} (kind {}) of seed {seed}", record[0]));
    }
    feeder.join().expect("the feeder ended");
    finish(child, &mut stdout)
}

/// Writes the records of a flight file to the program, and hands each batch on. A program that ends too early is told by what
/// it does not write.
fn feed(mut stdin: ChildStdin, mut flights: Flights, records: u64, sender: SyncSender<Vec<Vec<u8>>>) {
    let mut left = records;
    while left > 0 {
        let count = left.min(BATCH);
        let batch: Vec<_> = (0..count).map(|i| flights.next_record(left - i == 1)).collect();
        left -= count;
        let _ = stdin.write_all(&batch.concat());
        if sender.send(batch).is_err() {
            return;
        }
    }
}

/// Hands the oracle's craft a record, as `oracle steps` does: one of no kind, or cut short, leaves it as it is. Gives whether it
/// was an accepted call.
fn step(craft: &mut Craft, record: &[u8]) -> bool {
    let (kind, body) = (record[0], &record[1..]);
    records::body_length(kind) == Some(body.len())
        && matches!(craft.answer(kind, body), Answer::Attitude { .. } | Answer::BodyRate { .. })
}

impl Tally {
    /// Takes in the memory of both sides after a record. `place` says which it is.
    fn memory(&mut self, ours: &[u8], theirs: &[u8], place: impl Fn() -> String) {
        for word in words(ours) {
            self.digest = mix(self.digest ^ u64::from(word));
        }
        self.records += 1;
        if ours == theirs {
            return;
        }
        for (index, (a, b)) in words(ours).zip(words(theirs)).enumerate() {
            let open = index == ALTITUDE_TARGET && is_zero(a) && is_zero(b);
            if a != b && !open {
                self.differences += 1;
                let text = || format!("  {}, word {index}: port {a:08x}, oracle {b:08x}", place());
                self.first.get_or_insert_with(text);
            }
        }
    }

    fn counts(&self) -> String {
        let Tally { records, calls, differences, .. } = self;
        let words = records * CRAFT_WORDS as u64;
        format!("{records} records, {calls} accepted calls, {words} words, {differences} differences")
    }

    fn add(&mut self, other: &Tally) {
        self.records += other.records;
        self.calls += other.calls;
        self.differences += other.differences;
    }
}
