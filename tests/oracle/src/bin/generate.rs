//! `generate`: inputs for the oracle and for the port, made from a seed.

use std::io::{self, BufWriter, Write};
use std::process::ExitCode;

use oracle_parts::functions;
use oracle_parts::generate::{flights, inputs};

const USAGE: &str = "usage: generate flights SEED RECORDS KIND > flight
       generate inputs NAME SEED CALLS KIND > words
flight kinds: tame special any wide refused damaged cut steps long mixed grid
input kinds: tame special any wide mixed, and counting for functions of one word";

fn main() -> ExitCode {
    let arguments: Vec<String> = std::env::args().skip(1).collect();
    let arguments: Vec<&str> = arguments.iter().map(String::as_str).collect();
    let result = match arguments[..] {
        ["flights", seed, records, kind] => make_flights(seed, records, kind),
        ["inputs", name, seed, calls, kind] => make_inputs(name, seed, calls, kind),
        _ => Err(io::Error::other(USAGE)),
    };
    match result {
        Ok(()) => ExitCode::SUCCESS,
        Err(error) => {
            eprintln!("{error}");
            ExitCode::FAILURE
        }
    }
}

fn make_flights(seed: &str, records: &str, kind: &str) -> io::Result<()> {
    let mut flights = flights::Flights::new(number(seed)?, named(&flights::KINDS, kind)?);
    let mut out = BufWriter::new(io::stdout().lock());
    let records = number(records)?;
    for left in (0..records).rev() {
        out.write_all(&flights.next_record(left == 0))?;
    }
    out.flush()
}

fn make_inputs(name: &str, seed: &str, calls: &str, kind: &str) -> io::Result<()> {
    let function = functions::find(name)
        .ok_or_else(|| io::Error::other(format!("there is no function '{name}'")))?;
    let kind = named(&inputs::KINDS, kind)?;
    if kind == inputs::Kind::Counting && function.inputs() != 1 {
        return Err(io::Error::other("counting is for functions of one word"));
    }
    let mut inputs = inputs::Inputs::new(function, number(seed)?, kind);
    let mut out = BufWriter::new(io::stdout().lock());
    for _ in 0..number(calls)? {
        for word in inputs.next_call() {
            out.write_all(&word.to_le_bytes())?;
        }
    }
    out.flush()
}

fn number(text: &str) -> io::Result<u64> {
    text.parse().map_err(|_| io::Error::other(format!("'{text}' is no number")))
}

fn named<T: Copy>(names: &[(&str, T)], name: &str) -> io::Result<T> {
    let found = names.iter().find(|(known, _)| *known == name);
    found
        .map(|(_, kind)| *kind)
        .ok_or_else(|| io::Error::other(format!("there is no kind '{name}'")))
}
