//! A trial of one version: compiled, then flown through the recorded flights.

use std::fs;
use std::io;
use std::path::{Path, PathBuf};
use std::process::{Child, Command, Stdio};
use std::thread;
use std::time::{Duration, Instant};

use crate::recorded::Recorded;

/// The oracle's compiled parts.
const PARTS: &str = "tests/oracle/target/release";

/// The program that flies, whose text is the same for all versions.
const PROGRAM: &str = "tests/wrong/fly.rs";

/// Compiling takes longest, so every version is compiled unoptimised at first; one that goes on, optimised.
const FIRST_FLAGS: &[&str] = &["-C", "opt-level=0", "-C", "debug-assertions=off"];
const THEN_FLAGS: &[&str] = &["-C", "opt-level=1"];
const ALL_FLAGS: [&str; 4] = ["-C", "codegen-units=1", "-C", "embed-bitcode=no"];

/// A version that flies longer than this does not end.
const MOST_TIME: Duration = Duration::from_secs(300);

/// What `fly` ends with at a difference, and what Rust's programs end with at a panic.
const DIFFERS: i32 = 10;
const PANICKED: i32 = 101;

/// How often a running version is looked at.
const PAUSE: Duration = Duration::from_millis(2);

#[derive(Clone, Debug, PartialEq)]
pub enum Outcome {
    DoesNotCompile,
    /// An answer differs: the kind of flight in which it was seen first.
    Differs(String),
    Panics,
    DoesNotEnd,
    NotSeen,
}

/// A folder with a copy of the crate's source, in which one version after the other is compiled.
pub struct Room {
    folder: PathBuf,
    src: PathBuf,
}

impl Room {
    pub fn new(folder: PathBuf, source: &Path) -> Result<Self, String> {
        let src = folder.join("src");
        // What an interrupted run has left there may be a wrong version.
        let _ = fs::remove_dir_all(&folder);
        copy(source, &src).map_err(|error| format!("{}: {error}", src.display()))?;
        Ok(Room { folder, src })
    }

    /// Tries the crate with other texts in the place of some files' own.
    pub fn try_texts(&self, texts: &[(&str, String)], recorded: &Recorded) -> Result<Outcome, String> {
        let message = |file: &str, error: io::Error| format!("{file}: {error}");
        let mut right = Vec::new();
        for (file, text) in texts {
            right.push(fs::read(self.src.join(file)).map_err(|error| message(file, error))?);
            fs::write(self.src.join(file), text).map_err(|error| message(file, error))?;
        }
        let outcome = self.try_both(recorded);
        for ((file, _), right) in texts.iter().zip(right) {
            fs::write(self.src.join(file), right).map_err(|error| message(file, error))?;
        }
        outcome
    }

    /// Tries the crate as it stands, first on the short flights, then on the others.
    fn try_both(&self, recorded: &Recorded) -> Result<Outcome, String> {
        for (flags, flights) in [(FIRST_FLAGS, &recorded.first), (THEN_FLAGS, &recorded.then)] {
            if !self.compile(flags)? {
                return Ok(Outcome::DoesNotCompile);
            }
            let outcome = self.fly(flights)?;
            if outcome != Outcome::NotSeen {
                return Ok(outcome);
            }
        }
        Ok(Outcome::NotSeen)
    }

    /// Compiles the crate and the program over it. The program is the same for all versions, so it always compiles
    /// where the crate does.
    fn compile(&self, flags: &[&str]) -> Result<bool, String> {
        let mut crate_ = rustc(flags, &self.folder);
        crate_.args(["--crate-type", "rlib", "--crate-name", "stable_flight", "--cfg", "feature=\"testing\""]);
        crate_.args([
            format!("--extern=libm={PARTS}/liblibm.rlib"),
            format!("--extern=nalgebra={PARTS}/libnalgebra.rlib"),
        ]);
        if !succeeds(crate_.arg(self.src.join("lib.rs")))? {
            return Ok(false);
        }
        let mut program = rustc(flags, &self.folder);
        program.arg(format!("--extern=stable_flight={}", self.folder.join("libstable_flight.rlib").display()));
        if succeeds(program.arg(PROGRAM))? { Ok(true) } else { Err(format!("{PROGRAM} does not compile")) }
    }

    fn fly(&self, flights: &[PathBuf]) -> Result<Outcome, String> {
        let mut program = Command::new(self.folder.join("fly"));
        program.args(flights).stdout(Stdio::piped()).stderr(Stdio::null());
        let mut child = program.spawn().map_err(|error| format!("fly: {error}"))?;
        if !ends(&mut child)? {
            child.kill().and_then(|()| child.wait()).map_err(|error| format!("fly: {error}"))?;
            return Ok(Outcome::DoesNotEnd);
        }
        let output = child.wait_with_output().map_err(|error| format!("fly: {error}"))?;
        let said = String::from_utf8_lossy(&output.stdout);
        match (output.status.code(), said.split_whitespace().next()) {
            (Some(0), None) => Ok(Outcome::NotSeen),
            (Some(DIFFERS), Some(base)) => Ok(Outcome::Differs(kind_of(base))),
            (Some(PANICKED), None) => Ok(Outcome::Panics),
            // Killed, short of memory, or a file that cannot be read: nothing is known of the version.
            _ => Err(format!("{}: {}", self.folder.join("fly").display(), output.status)),
        }
    }
}

/// The kind of a flight whose file is `FOLDER/KIND-SEED-RECORDS` or `FOLDER/KIND`.
fn kind_of(base: &str) -> String {
    let name = base.rsplit('/').next().unwrap_or(base);
    name.split('-').next().unwrap_or(name).to_string()
}

fn rustc(flags: &[&str], folder: &Path) -> Command {
    let mut command = Command::new("rustc");
    command.args(["--edition", "2024", "--cap-lints", "allow", "-L", &format!("dependency={PARTS}")]);
    command.args(["--error-format=short"]).args(ALL_FLAGS).args(flags).arg("--out-dir").arg(folder);
    command
}

/// Whether rustc took the text. It ends with status 1 at an error in it, and names the place; any other end, such as
/// for want of disk or memory, says nothing of the text.
fn succeeds(command: &mut Command) -> Result<bool, String> {
    let output = command.output().map_err(|error| format!("rustc: {error}"))?;
    let said = String::from_utf8_lossy(&output.stderr);
    match output.status.code() {
        Some(0) => Ok(true),
        Some(1) if said.lines().any(|line| line.contains(".rs:") && line.contains(": error")) => Ok(false),
        _ => Err(format!("rustc: {}\n{said}", output.status)),
    }
}

/// Waits until the program has ended, or for the time that it may take.
fn ends(child: &mut Child) -> Result<bool, String> {
    let begun = Instant::now();
    while child.try_wait().map_err(|error| format!("fly: {error}"))?.is_none() {
        if begun.elapsed() > MOST_TIME {
            return Ok(false);
        }
        thread::sleep(PAUSE);
    }
    Ok(true)
}

fn copy(from: &Path, to: &Path) -> io::Result<()> {
    fs::create_dir_all(to)?;
    for entry in fs::read_dir(from)? {
        let entry = entry?;
        let target = to.join(entry.file_name());
        if entry.file_type()?.is_dir() {
            copy(&entry.path(), &target)?
        } else {
            fs::copy(entry.path(), target).map(|_| ())?
        }
    }
    Ok(())
}
