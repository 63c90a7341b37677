//! Programs that a driver feeds and reads at the same time.

use std::fs::{self, File};
use std::io;
use std::path::PathBuf;
use std::process::{Child, ChildStdin, ChildStdout, Command, Stdio};

/// Starts a program, and gives its input and output. What it says on standard error is kept until the next one starts,
/// and not shown: of many flights it says why they ended.
pub fn start(command: &mut Command) -> io::Result<(Child, ChildStdin, ChildStdout)> {
    let said = File::create(said_file()?)?;
    let mut child = command.stdin(Stdio::piped()).stdout(Stdio::piped()).stderr(said).spawn()?;
    let (stdin, stdout) = (child.stdin.take(), child.stdout.take());
    Ok((child, stdin.expect("it is piped"), stdout.expect("it is piped")))
}

/// Beside the driver.
fn said_file() -> io::Result<PathBuf> {
    Ok(std::env::current_exe()?.with_extension("said"))
}

/// What the program that was started last has said on standard error, to follow on a message about it.
pub fn said() -> String {
    let said = said_file().and_then(fs::read_to_string).unwrap_or_default();
    if said.is_empty() { said } else { format!("\n  it said: {}", said.trim_end()) }
}
