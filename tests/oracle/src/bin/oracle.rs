//! `oracle`: answers of the Rust, for flights and for single functions.

use std::io::{self, Write};
use std::process::ExitCode;

use oracle_parts::craft::Craft;
use oracle_parts::records::{self, Answer, Refusal};
use oracle_parts::words::{Reader, Writer};
use oracle_parts::{config, functions, memory, stream};

const USAGE: &str = "usage: oracle fly < flight > answers
       oracle steps < flight > memories
       oracle fn NAME < words > words
       oracle names
       oracle defaults > configure-record";

fn main() -> ExitCode {
    let arguments: Vec<String> = std::env::args().skip(1).collect();
    let arguments: Vec<&str> = arguments.iter().map(String::as_str).collect();
    let result = match arguments[..] {
        ["fly"] => fly(|_, answer, out| answer.write(out)),
        ["steps"] => fly(|craft, _, out| memory::craft(craft.guidance.as_ref(), out)),
        ["fn", name] => call(name),
        ["names"] => names(),
        ["defaults"] => defaults(),
        _ => Err(io::Error::other(USAGE)),
    };
    match result {
        Ok(()) => ExitCode::SUCCESS,
        Err(error) => {
            eprintln!("{error}");
            ExitCode::FAILURE
        }
    }
}

/// Reads records to the end, or to the first that cannot be read. After each, `report` writes
/// its answer or the memory that the craft has then.
fn fly(report: impl Fn(&Craft, &Answer, &mut Writer)) -> io::Result<()> {
    let mut stream = stream::standard();
    let mut craft = Craft::default();
    let mut out = Writer::default();
    loop {
        let Some(&kind) = stream.take(1)?.first() else {
            return stream.flush();
        };
        let answer = match records::body_length(kind) {
            None => Answer::Refused(Refusal::Kind),
            Some(length) => {
                let body = stream.take(length)?;
                if body.len() < length {
                    Answer::Refused(Refusal::Cut)
                } else {
                    craft.answer(kind, body)
                }
            }
        };
        out.bytes.clear();
        report(&craft, &answer, &mut out);
        stream.write(&out.bytes)?;
        if matches!(answer, Answer::Refused(refusal) if refusal.ends_the_flight()) {
            return stream.flush();
        }
    }
}

/// Calls one function for as long as there are words.
fn call(name: &str) -> io::Result<()> {
    let function = functions::find(name)
        .ok_or_else(|| io::Error::other(format!("there is no function '{name}'")))?;
    let mut stream = stream::standard();
    let mut call = (function.start)();
    let mut out = Writer::default();
    let words = function.inputs();
    loop {
        let bytes = stream.take(4 * words)?;
        if bytes.is_empty() {
            return stream.flush();
        }
        if bytes.len() < 4 * words {
            stream.flush()?;
            let message = format!("the last call is cut: {name} takes {} bytes a call", 4 * words);
            return Err(io::Error::other(message));
        }
        out.bytes.clear();
        call(&mut Reader::new(bytes), &mut out);
        assert_eq!(out.bytes.len(), 4 * function.outputs);
        stream.write(&out.bytes)?;
    }
}

/// Lists the functions: name, words in, words out.
fn names() -> io::Result<()> {
    let mut out = io::stdout().lock();
    functions::all().try_for_each(|function| {
        writeln!(out, "{} {} {}", function.name, function.inputs(), function.outputs)
    })
}

/// Writes a configure record with the Rust's default configuration.
fn defaults() -> io::Result<()> {
    let mut out = Writer::default();
    out.byte(records::CONFIGURE);
    config::default_fields().iter().for_each(|field| out.float(*field));
    io::stdout().write_all(&out.bytes)
}
