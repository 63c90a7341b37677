//! `facts`: measures again what is known of the Rust. With `--every`, angles are wrapped from
//! every bit pattern, which takes some minutes.

use std::process::ExitCode;

use oracle_parts::facts;

fn main() -> ExitCode {
    let every = std::env::args().any(|argument| argument == "--every");
    let facts = facts::run(every);
    println!("{} facts hold, {} do not", facts.held, facts.failed);
    if facts.failed == 0 { ExitCode::SUCCESS } else { ExitCode::FAILURE }
}
