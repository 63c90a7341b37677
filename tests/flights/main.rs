//! Shows by runs what the flight-file program of the port promises. COMMAND is that program.
//!
//!   flights run RECORDS COMMAND..     its answers beside the oracle's, over generated flights of all kinds
//!   flights twins FEEDS COMMAND..     after an ending call, its answers beside those of a twin with another past
//!   flights wrong FEEDS COMMAND..     the same with twins that are wrong, which have to be found
//!   flights damage COMMAND..          cut, bad and random files
//!   flights facts COMMAND..           flights whose answers a reader may not expect
//!   flights large MEGABYTES COMMAND.. memory and speed on a large flight, and answers record by record

#[path = "../command.rs"]
mod command;
mod compare;
mod damage;
mod document;
#[path = "../edges.rs"]
mod edges;
mod facts;
mod feeds;
mod large;
#[path = "../mix.rs"]
mod mix;
#[path = "../pipes.rs"]
mod pipes;
mod program;
#[path = "../progress.rs"]
mod progress;
mod random;
mod twins;

use std::process::ExitCode;

use command::number;
use program::Program;

const USAGE: &str = "usage: flights run RECORDS COMMAND..
       flights twins FEEDS COMMAND..
       flights wrong FEEDS COMMAND..
       flights damage COMMAND..
       flights facts COMMAND..
       flights large MEGABYTES COMMAND..";

fn main() -> ExitCode {
    let arguments = command::words();
    let arguments: Vec<&str> = arguments.iter().map(String::as_str).collect();
    command::end(match arguments[..] {
        ["run", records, _, ..] => compare::run(&Program::new(&arguments[2..]), number(records)),
        ["twins", feeds, _, ..] => twins::run(&Program::new(&arguments[2..]), number(feeds)),
        ["wrong", feeds, _, ..] => twins::run_wrong(&Program::new(&arguments[2..]), number(feeds)),
        ["damage", _, ..] => damage::run(&Program::new(&arguments[1..])),
        ["facts", _, ..] => facts::run(&Program::new(&arguments[1..])),
        ["large", size, _, ..] => large::run(&Program::new(&arguments[2..]), number(size)),
        _ => command::wrong_use(USAGE),
    })
}
