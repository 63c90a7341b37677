//! Compares the port with the oracle: the port as the program of crates/replay or of crates/steps, the oracle by its own
//! parts.
//!
//!   differential compare CALLS COMMAND..    feeds both the same calls of single functions and says where the answers differ
//!   differential memory RECORDS COMMAND..   feeds both the same flights and says where the craft's memory differs
//!   differential sample STDIN STDOUT        writes a list of calls and the oracle's answers, for the program to replay

mod calls;
#[path = "../command.rs"]
mod command;
mod compare;
mod memory;
#[path = "../mix.rs"]
mod mix;
#[path = "../pipes.rs"]
mod pipes;
#[path = "../progress.rs"]
mod progress;
mod sample;

use std::process::ExitCode;

use command::number;

const USAGE: &str = "usage: differential compare CALLS COMMAND..
       differential memory RECORDS COMMAND..
       differential sample STDIN STDOUT";

fn main() -> ExitCode {
    let arguments = command::words();
    let arguments: Vec<&str> = arguments.iter().map(String::as_str).collect();
    command::end(match arguments[..] {
        ["compare", calls, ref command @ ..] if !command.is_empty() => compare::run(command, number(calls)),
        ["memory", records, ref command @ ..] if !command.is_empty() => memory::run(command, number(records)),
        ["sample", stdin, stdout] => sample::write(stdin, stdout).map(|()| true),
        _ => command::wrong_use(USAGE),
    })
}
