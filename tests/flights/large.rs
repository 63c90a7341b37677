//! A large flight through a pipe: the program's memory does not grow with it, each answer comes before the next record,
//! and how fast the program is beside the oracle's.

use std::fs::{self, File};
use std::io::{BufWriter, Read, Write};
use std::process::{ChildStdout, Stdio};
use std::sync::mpsc::{Receiver, channel};
use std::thread;
use std::time::{Duration, Instant};

use oracle_parts::generate::flights::{Flights, Kind};

use crate::document::{self, Entry};
use crate::program::Program;
use crate::progress::Progress;
use crate::random::Random;

const MEGABYTE: usize = 1_000_000;

/// The flight that is repeated. It begins with a configuration, so every repetition has the same answers.
const FLIGHT_MEGABYTES: u64 = 10;

/// How much the peak of memory may grow, in kB.
const MOST_GROWTH_KB: u64 = 200;

/// Memory is read after the first repetition and after the last.
const LEAST_REPETITIONS: u64 = 2;

const RECORDS_ONE_BY_ONE: usize = 1000;

/// How long an answer may take.
const PATIENCE: Duration = Duration::from_secs(20);

/// Rounds in which the two programs take turns.
const ROUNDS: usize = 7;

/// Of the large flight, three tenths are flown for speed, from a file, but not more than this.
const SPEED_FILE: &str = "tests/flights/target/speed.flight";
const MOST_SPEED_MEGABYTES: u64 = 300;

/// Runs all parts on a flight of `megabytes`. Gives whether each came out well.
pub fn run(port: &Program, megabytes: u64) -> Result<bool, String> {
    let flight = long_flight();
    let answers = Program::oracle().answers(&flight)?;
    let one_by_one = one_by_one(port, &flight, &answers)?;
    let repetitions = megabytes.div_ceil(FLIGHT_MEGABYTES).max(LEAST_REPETITIONS);
    let memory = one_by_one && memory(port, &flight, &answers, repetitions)?;
    let speed_megabytes = (megabytes * 3).div_ceil(10).min(MOST_SPEED_MEGABYTES);
    speed(port, &flight, speed_megabytes.div_ceil(FLIGHT_MEGABYTES))?;
    Ok(memory)
}

/// The oracle's `generate flights 1 RECORDS long`, with as many records as it takes.
fn long_flight() -> Vec<u8> {
    let mut flights = Flights::new(1, Kind::Long);
    let mut flight = Vec::new();
    while flight.len() < FLIGHT_MEGABYTES as usize * MEGABYTE {
        flight.extend(flights.next_record(false));
    }
    flight
}

/// Feeds one record, and the next when its answer is there. Every other record comes in two pieces.
fn one_by_one(port: &Program, flight: &[u8], answers: &[u8]) -> Result<bool, String> {
    let (child, mut stdin, stdout) = port.start_piped()?;
    let written = written_bytes(stdout);
    let mut random = Random::new(1);
    let pairs = document::entries(flight).zip(document::answers(answers)).take(RECORDS_ONE_BY_ONE);
    for (index, (entry, answer)) in pairs.enumerate() {
        let Entry::Whole(record) = entry else {
            return Err("the flight has a record that is not whole".into());
        };
        let (start, end) = record.split_at(if index % 2 == 0 { 0 } else { random.below(record.len()) });
        for piece in [start, end] {
            stdin.write_all(piece).map_err(|error| port.message(&error.to_string()))?;
        }
        if !next_bytes(&written, answer) {
            println!("record by record: no answer, or another one, to record {}", index + 1);
            return Ok(false);
        }
    }
    drop(stdin);
    port.ended_well(child)?;
    println!("record by record: {RECORDS_ONE_BY_ONE} answers, each before the next record");
    Ok(true)
}

/// Reads what a program writes, a byte at a time, so that waiting for it can end.
fn written_bytes(stdout: ChildStdout) -> Receiver<u8> {
    let (sender, receiver) = channel();
    thread::spawn(move || {
        for byte in stdout.bytes().map_while(Result::ok) {
            if sender.send(byte).is_err() {
                break;
            }
        }
    });
    receiver
}

fn next_bytes(written: &Receiver<u8>, answer: &[u8]) -> bool {
    answer.iter().all(|byte| written.recv_timeout(PATIENCE) == Ok(*byte))
}

/// The peak of the process's memory after the flight once and after all repetitions, all answers being read and
/// compared.
fn memory(port: &Program, flight: &[u8], answers: &[u8], repetitions: u64) -> Result<bool, String> {
    let (child, mut stdin, mut stdout) = port.start_piped()?;
    let mut written = vec![0; answers.len()];
    let mut peaks_kb = [0; 2];
    let progress = Progress::new("memory", repetitions * FLIGHT_MEGABYTES, "MB");
    let mut same = true;
    for repetition in 1..=repetitions {
        let fed = thread::scope(|scope| {
            let feeder = scope.spawn(|| stdin.write_all(flight));
            let read = stdout.read_exact(&mut written);
            feeder.join().expect("the feeder ended").and(read)
        });
        fed.map_err(|error| port.message(&error.to_string()))?;
        same &= written == answers;
        progress.add(FLIGHT_MEGABYTES);
        if repetition == 1 || repetition == repetitions {
            peaks_kb[usize::from(repetition > 1)] = peak_kb(child.id())?;
        }
    }
    drop(stdin);
    port.ended_well(child)?;
    let [first_kb, last_kb] = peaks_kb;
    let megabytes = |repetitions: u64| repetitions as usize * flight.len() / MEGABYTE;
    println!("memory: peak {first_kb} kB after {} MB, {last_kb} kB after {} MB", megabytes(1), megabytes(repetitions));
    println!("  answers of each of {repetitions} repetitions {}", if same { "as the oracle's" } else { "DIFFER" });
    Ok(same && last_kb.abs_diff(first_kb) <= MOST_GROWTH_KB)
}

/// The peak of resident memory of a process, in kB.
fn peak_kb(process: u32) -> Result<u64, String> {
    let path = format!("/proc/{process}/status");
    let status = fs::read_to_string(&path).map_err(|error| format!("{path}: {error}"))?;
    let line = status.lines().find_map(|line| line.strip_prefix("VmHWM:"));
    let peak = line.and_then(|text| text.trim().strip_suffix(" kB")).and_then(|number| number.parse().ok());
    peak.ok_or_else(|| format!("{path} has no VmHWM"))
}

/// Records a second of both programs on the same file, in turns: by the clock, and by the processor's time, which
/// depends less on what else the machine does.
fn speed(port: &Program, flight: &[u8], repetitions: u64) -> Result<(), String> {
    write_repeated(flight, repetitions).map_err(|error| {
        let _ = fs::remove_file(SPEED_FILE);
        format!("{SPEED_FILE}: {error}")
    })?;
    let records = document::entries(flight).count() as f64 * repetitions as f64;
    let programs = [port, &Program::oracle()];
    let mut taken: [[Vec<f64>; 2]; 2] = Default::default();
    let progress = Progress::new("speed", ROUNDS as u64, "rounds");
    for _ in 0..ROUNDS {
        for (program, taken) in programs.iter().zip(&mut taken) {
            let seconds = seconds(program)?;
            taken.iter_mut().zip(seconds).for_each(|(taken, seconds)| taken.push(records / seconds / 1e6));
        }
        progress.add(1);
    }
    let _ = fs::remove_file(SPEED_FILE);
    let [[port_clock, port_processor], [oracle_clock, oracle_processor]] = taken.map(|both| both.map(median));
    let megabytes = repetitions as usize * flight.len() / MEGABYTE;
    println!("speed: {records} records, {megabytes} MB, medians of {ROUNDS} rounds, in millions of records a second");
    for (what, ours, theirs) in
        [("clock", port_clock, oracle_clock), ("processor time", port_processor, oracle_processor)]
    {
        println!("  by {what}: port {ours:.2}, oracle {theirs:.2}, ratio {:.2}", ours / theirs);
    }
    Ok(())
}

fn write_repeated(flight: &[u8], repetitions: u64) -> std::io::Result<()> {
    let mut file = BufWriter::new(File::create(SPEED_FILE)?);
    (0..repetitions).try_for_each(|_| file.write_all(flight))?;
    file.flush()
}

/// Clock and processor seconds of a run over the file, its answers thrown away.
fn seconds(program: &Program) -> Result<[f64; 2], String> {
    let file = File::open(SPEED_FILE).map_err(|error| format!("{SPEED_FILE}: {error}"))?;
    let before = processor_seconds()?;
    let began = Instant::now();
    let child = program.start(file.into(), Stdio::null())?;
    program.ended_well(child)?;
    let clock = began.elapsed().as_secs_f64();
    Ok([clock, processor_seconds()? - before])
}

/// The processor's time of all children that have ended, from hundredths of a second: the 16th and 17th word of the
/// file, counted from the name of the command, which may have blanks in it.
fn processor_seconds() -> Result<f64, String> {
    let path = "/proc/self/stat";
    let text = fs::read_to_string(path).map_err(|error| format!("{path}: {error}"))?;
    let words = text.rsplit(") ").next().unwrap_or_default().split(' ');
    let ticks: Vec<f64> = words.skip(13).take(2).filter_map(|word| word.parse().ok()).collect();
    match ticks[..] {
        [user, system] => Ok((user + system) / 100.0),
        _ => Err(format!("{path} has no times of children")),
    }
}

fn median(mut values: Vec<f64>) -> f64 {
    values.sort_by(f64::total_cmp);
    values[values.len() / 2]
}
