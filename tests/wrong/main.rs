//! Makes one-token wrong versions of the Rust guidance, flies recorded flights through each, and says which are not
//! told apart.
//!
//!   wrong RECORDS JOBS          tries all versions on RECORDS records, JOBS at a time
//!   wrong list                  prints the versions, none tried
//!   wrong one RECORDS NUMBER..  tries versions by their number in that list

mod changes;
#[path = "../command.rs"]
mod command;
#[path = "../edges.rs"]
mod edges;
mod lists;
mod places;
mod recorded;
mod report;
mod tokens;
mod trial;
mod versions;

use std::path::Path;
use std::process::ExitCode;
use std::sync::Mutex;
use std::sync::atomic::{AtomicUsize, Ordering};
use std::thread;

use command::{number, wrong_use};
use recorded::Recorded;
use trial::{Outcome, Room};
use versions::Version;

const USAGE: &str = "usage: wrong RECORDS JOBS
       wrong list
       wrong one RECORDS NUMBER..";

/// The source as the oracle's build lays it out.
const SOURCE: &str = "tests/oracle/target/stable-flight/src";

const TARGET: &str = "tests/wrong/target";
const LEFT_OUT: &str = "tests/wrong/LEFT-OUT.txt";
const NOT_SEEN: &str = "tests/wrong/NOT-SEEN.txt";

/// After this many versions a line says how far the run is.
const LINE_EVERY: usize = 50;

fn main() -> ExitCode {
    let arguments = command::words();
    let arguments: Vec<&str> = arguments.iter().map(String::as_str).collect();
    let done = match arguments[..] {
        ["list"] => list(),
        ["one", records, _, ..] => one(number(records), &arguments[2..]),
        [records, jobs] => run(number(records), number(jobs) as usize),
        _ => wrong_use(USAGE),
    };
    command::end(done.map_err(|message| format!("tests/wrong: {message}")))
}

fn all_versions() -> Result<Vec<Version>, String> {
    versions::versions(Path::new(SOURCE), &lists::names(Path::new(LEFT_OUT))?)
}

/// Tries the unchanged text, and the one whose functions that are left out panic: neither may be told apart.
fn try_right(room: &Room, recorded: &Recorded) -> Result<(), String> {
    if room.try_texts(&[], recorded)? != Outcome::NotSeen {
        return Err("the unchanged text itself is told apart".into());
    }
    let stopped = versions::stopped(Path::new(SOURCE), &lists::names(Path::new(LEFT_OUT))?)?;
    match room.try_texts(&stopped, recorded)? {
        Outcome::NotSeen => Ok(()),
        outcome => Err(format!("a function is called that is left out as one that is not ({outcome:?})")),
    }
}

fn list() -> Result<bool, String> {
    for (number, Version { key, kind, line, .. }) in all_versions()?.iter().enumerate() {
        println!("{number} {} {line} {kind} {}: {}    {}", key.file, key.place, key.change, key.line);
    }
    Ok(true)
}

fn one(records: u64, numbers: &[&str]) -> Result<bool, String> {
    let versions = all_versions()?;
    let chosen: Vec<&Version> = numbers.iter().map(|number| version(&versions, number)).collect();
    let recorded = recorded::make(&Path::new(TARGET).join("flights"), records)?;
    let room = Room::new(Path::new(TARGET).join("one"), Path::new(SOURCE))?;
    for (number, version) in numbers.iter().zip(chosen) {
        println!("{number} {:?}: {:?}", version.key, try_version(&room, version, &recorded)?);
    }
    Ok(true)
}

fn version<'a>(versions: &'a [Version], number: &str) -> &'a Version {
    let found = number.parse().ok().and_then(|number: usize| versions.get(number));
    found.unwrap_or_else(|| wrong_use(&format!("'{number}' is no version's number, 0 to {}", versions.len() - 1)))
}

fn try_version(room: &Room, version: &Version, recorded: &Recorded) -> Result<Outcome, String> {
    room.try_texts(&[(&version.key.file, version.text.clone())], recorded)
}

/// Tries all versions. Gives whether the list is right.
fn run(records: u64, jobs: usize) -> Result<bool, String> {
    let versions = all_versions()?;
    let entries = lists::entries(Path::new(NOT_SEEN), &versions)?;
    eprintln!("wrong: making {records} records and the oracle's answers to them");
    let recorded = recorded::make(&Path::new(TARGET).join("flights"), records)?;
    let rooms: Result<Vec<Room>, String> =
        (0..jobs).map(|job| Room::new(Path::new(TARGET).join(format!("room-{job}")), Path::new(SOURCE))).collect();
    let rooms = rooms?;
    try_right(&rooms[0], &recorded)?;
    eprintln!("wrong: {} versions, {jobs} at a time", versions.len());
    let outcomes = try_all(&versions, &recorded, &rooms)?;
    Ok(report::print(&versions, &outcomes, &entries, recorded.records))
}

/// The outcomes of the versions, in their order.
fn try_all(versions: &[Version], recorded: &Recorded, rooms: &[Room]) -> Result<Vec<Outcome>, String> {
    let next = AtomicUsize::new(0);
    let outcomes = Mutex::new(vec![Outcome::NotSeen; versions.len()]);
    let work = |room: &Room| -> Result<(), String> {
        loop {
            let at = next.fetch_add(1, Ordering::Relaxed);
            let Some(version) = versions.get(at) else { return Ok(()) };
            let outcome = try_version(room, version, recorded)?;
            if outcome == Outcome::NotSeen {
                let Version { key, line, .. } = version;
                eprintln!("wrong: {at} not seen: {} {line}, {}: {}    {}", key.file, key.place, key.change, key.line);
            }
            outcomes.lock().expect("no worker panics")[at] = outcome;
            if (at + 1) % LINE_EVERY == 0 {
                eprintln!("wrong: {} of {} versions", at + 1, versions.len());
            }
        }
    };
    thread::scope(|scope| {
        let workers: Vec<_> = rooms.iter().map(|room| scope.spawn(|| work(room))).collect();
        workers.into_iter().try_for_each(|worker| worker.join().expect("no worker panics"))
    })?;
    Ok(outcomes.into_inner().expect("no worker panics"))
}
