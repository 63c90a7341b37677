//! Holds the tables of README's "The formats" against the program, the definitions of the configuration's fields and
//! the worked flight. Run from the root of the repository.
//!
//!   formats PROGRAM [README]            each part with its count; 1 where a table and the program differ
//!   formats --wrong PROGRAM [README]    the same with a thousand wrong tables, each of which has to be found

mod facts;
mod field_facts;
mod flight;
#[path = "../pipes.rs"]
mod pipes;
mod program;
mod records;
mod refusals;
mod rule;
mod rules;
mod sentences;
mod shape;
mod tables;
mod wrong;

use std::fs;
use std::process::ExitCode;

use program::Program;
use tables::Formats;

const README: &str = "README.md";
const DEFINITIONS: &str = "crates/copter/specs/Config.antt";
const WORKED: &str = "tests/flights/worked";

const USAGE: &str = "usage: formats [--wrong] PROGRAM [README]";

/// The most differences that are shown.
const SHOWN: usize = 20;

/// What was compared, and what differed.
#[derive(Default)]
pub struct Found {
    parts: Vec<(&'static str, usize)>,
    differences: Vec<String>,
}

impl Found {
    fn expect(&mut self, holds: bool, message: impl FnOnce() -> String) {
        if !holds {
            self.differences.push(message());
        }
    }

    /// The same of a line of README.
    fn at(&mut self, line: usize, holds: bool, message: impl FnOnce() -> String) {
        self.expect(holds, || format!("line {line}: {}", message()));
    }

    fn done(&mut self, part: &'static str, count: usize) {
        self.parts.push((part, count));
    }
}

/// What README is held against.
pub struct Reference {
    program: Program,
    definitions: String,
    worked: Vec<u8>,
}

/// All parts, or up to the first that differs. A part that cannot go on differs, too.
pub fn check(readme: &str, reference: &Reference, all: bool) -> Found {
    let mut found = Found::default();
    let formats = match Formats::read(readme) {
        Ok(formats) => formats,
        Err(error) => {
            found.differences.push(error);
            return found;
        }
    };
    for part in [shape::check, rules::check, facts::check, records::check, refusals::check] {
        if !all && !found.differences.is_empty() {
            break;
        }
        if let Err(error) = part(&formats, reference, &mut found) {
            found.differences.push(error);
        }
    }
    found
}

fn main() -> ExitCode {
    let arguments: Vec<String> = std::env::args().skip(1).collect();
    let arguments: Vec<&str> = arguments.iter().map(String::as_str).collect();
    let (wrong, rest) = match arguments[..] {
        ["--wrong", ref rest @ ..] => (true, rest),
        ref rest => (false, rest),
    };
    let done = match *rest {
        [program] => run(program, README, wrong),
        [program, readme] => run(program, readme, wrong),
        _ => {
            eprintln!("{USAGE}");
            return ExitCode::from(2);
        }
    };
    match done {
        Ok(true) => ExitCode::SUCCESS,
        Ok(false) => ExitCode::FAILURE,
        Err(message) => {
            eprintln!("formats: {message}");
            ExitCode::FAILURE
        }
    }
}

/// Gives whether all is as it should be.
fn run(program: &str, readme: &str, wrong: bool) -> Result<bool, String> {
    let text = read(readme)?;
    let text = String::from_utf8(text).map_err(|error| format!("{readme}: {error}"))?;
    let definitions = String::from_utf8(read(DEFINITIONS)?).map_err(|error| format!("{DEFINITIONS}: {error}"))?;
    let reference = Reference { program: Program::new(program), definitions, worked: read(WORKED)? };
    if wrong {
        return wrong::run(&text, &reference);
    }
    let found = check(&text, &reference, true);
    for (part, count) in &found.parts {
        println!("{part}: {count}");
    }
    for difference in found.differences.iter().take(SHOWN) {
        println!("{readme}: {difference}");
    }
    println!("differences: {}", found.differences.len());
    Ok(found.differences.is_empty())
}

fn read(path: &str) -> Result<Vec<u8>, String> {
    fs::read(path).map_err(|error| format!("{path}: {error}"))
}
