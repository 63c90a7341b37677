//! What the drivers' command lines have in common: their words, their numbers, how they end. Status 0 where all is
//! well, 1 where it is not or something failed, 2 at wrong use.

use std::io::Write;
use std::panic::{self, PanicHookInfo};
use std::process::{ExitCode, exit};

/// A larger number of records, calls, feeds or megabytes is a slip.
const MOST: u64 = 999_999_999_999;

/// The words of the command line. From here on a panic is one line and ends the program: printing panics where standard
/// output is full or closed.
pub fn words() -> Vec<String> {
    panic::set_hook(Box::new(stop));
    std::env::args().skip(1).collect()
}

fn stop(panic: &PanicHookInfo) {
    let text = panic.payload().downcast_ref::<String>().map(String::as_str);
    let text = text.or(panic.payload().downcast_ref::<&str>().copied());
    // Standard error may be full too.
    let _ = writeln!(std::io::stderr(), "{}", text.unwrap_or("a check of the driver failed"));
    exit(1);
}

/// How many records, calls, feeds or megabytes a run has.
pub fn number(text: &str) -> u64 {
    match text.parse() {
        Ok(number @ 1..=MOST) => number,
        _ => wrong_use(&format!("'{text}' is not a whole number from 1 to {MOST}")),
    }
}

pub fn wrong_use(message: &str) -> ! {
    eprintln!("{message}");
    exit(2);
}

/// The status for what was found, or for what made the run end.
pub fn end(found: Result<bool, String>) -> ExitCode {
    match found {
        Ok(true) => ExitCode::SUCCESS,
        Ok(false) => ExitCode::FAILURE,
        Err(message) => {
            eprintln!("{message}");
            ExitCode::FAILURE
        }
    }
}
