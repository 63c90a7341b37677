//! The recorded lines: counts by file and by kind of change, which kind of flight told a version first, and the list.

use std::collections::BTreeMap;

use crate::changes::KINDS;
use crate::lists::Entry;
use crate::trial::Outcome;
use crate::versions::{FILES, Version};

/// Prints the lines. Gives whether the versions that were not seen are those of the list.
pub fn print(versions: &[Version], outcomes: &[Outcome], entries: &[Entry], records: u64) -> bool {
    let all: Vec<(&Version, &Outcome)> = versions.iter().zip(outcomes).collect();
    println!("{records} records");
    for file in FILES {
        counts(file, all.iter().filter(|(version, _)| version.key.file == file).map(|(_, outcome)| *outcome));
    }
    println!();
    for kind in KINDS {
        counts(kind, all.iter().filter(|(version, _)| version.kind == kind).map(|(_, outcome)| *outcome));
    }
    println!();
    first_seen(outcomes);
    counts("all", outcomes.iter());
    is_list_right(&all, entries)
}

/// Compares the list with what was seen, and prints it or what is wrong with it.
fn is_list_right(all: &[(&Version, &Outcome)], entries: &[Entry]) -> bool {
    let mut right = true;
    println!("not seen, on the list with a reason each: {}", entries.len());
    for (Version { key, line, .. }, outcome) in all {
        let entry = entries.iter().find(|entry| entry.key == *key);
        let what = match (entry, *outcome) {
            (None, Outcome::NotSeen) => "WRONG: not seen and not on the list:".into(),
            (Some(_), Outcome::NotSeen) => " ".into(),
            (Some(entry), outcome) => format!("WRONG: line {} of the list, but {}:", entry.number, said(outcome)),
            (None, _) => continue,
        };
        right &= !what.starts_with("WRONG");
        println!("{what} {} {line}, {}: {} in '{}'", key.file, key.place, key.change, key.line);
    }
    right
}

fn said(outcome: &Outcome) -> String {
    match outcome {
        Outcome::DoesNotCompile => "it does not compile".into(),
        Outcome::Differs(kind) => format!("told apart by a {kind} flight"),
        Outcome::Panics => "it panics".into(),
        Outcome::DoesNotEnd => "it does not end".into(),
        Outcome::NotSeen => "it is not seen".into(),
    }
}

fn counts<'a>(name: &str, outcomes: impl Iterator<Item = &'a Outcome>) {
    let (mut total, mut bad, mut unseen) = (0, 0, 0);
    for outcome in outcomes {
        total += 1;
        bad += usize::from(*outcome == Outcome::DoesNotCompile);
        unseen += usize::from(*outcome == Outcome::NotSeen);
    }
    let versions = total - bad;
    println!("{name}: {versions} versions, {} seen, {unseen} not seen ({bad} more do not compile)", versions - unseen);
}

/// How many versions each kind of flight told first, and how many panic or do not end.
fn first_seen(outcomes: &[Outcome]) {
    let mut counts: BTreeMap<String, usize> = BTreeMap::new();
    for outcome in outcomes {
        let name = match outcome {
            Outcome::Differs(kind) => kind.as_str(),
            Outcome::Panics => "a panic",
            Outcome::DoesNotEnd => "no end",
            _ => continue,
        };
        *counts.entry(name.into()).or_insert(0) += 1;
    }
    let texts: Vec<String> = counts.iter().map(|(name, count)| format!("{name} {count}")).collect();
    println!("seen first by: {}", texts.join(", "));
}
