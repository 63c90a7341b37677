//! Programs that read a flight from standard input and write its answers: the port's and the oracle's.

use std::io::{self, Read, Write};
use std::process::{Child, ChildStdin, ChildStdout, Command, Stdio};
use std::thread;

use crate::pipes;

/// From the root of the repository, where the scripts run the driver.
const ORACLE: &str = "tests/oracle/target/release/oracle";

pub struct Program {
    command: Vec<String>,
}

impl Program {
    pub fn new(command: &[&str]) -> Self {
        Program { command: command.iter().map(|part| part.to_string()).collect() }
    }

    pub fn oracle() -> Self {
        Program::new(&[ORACLE, "fly"])
    }

    fn program(&self) -> Command {
        let mut program = Command::new(&self.command[0]);
        program.args(&self.command[1..]);
        program
    }

    /// Starts the program with these streams.
    pub fn start(&self, stdin: Stdio, stdout: Stdio) -> Result<Child, String> {
        let started = self.program().stdin(stdin).stdout(stdout).spawn();
        started.map_err(|error| self.message(&error.to_string()))
    }

    /// Starts the program, and gives its input and output.
    pub fn start_piped(&self) -> Result<(Child, ChildStdin, ChildStdout), String> {
        pipes::start(&mut self.program()).map_err(|error| self.message(&error.to_string()))
    }

    /// All that the program writes for an input. It has to end with status 0.
    pub fn answers(&self, input: &[u8]) -> Result<Vec<u8>, String> {
        let (child, mut stdin, mut stdout) = self.start_piped()?;
        let mut answers = Vec::new();
        let (written, read) = thread::scope(|scope| {
            let writer = scope.spawn(move || stdin.write_all(input));
            let read = stdout.read_to_end(&mut answers);
            (writer.join().expect("the writer ended"), read)
        });
        let failure = read.err().or(written.err().filter(|error| !stopped_reading(error)));
        if let Some(error) = failure {
            return Err(self.message(&error.to_string()));
        }
        self.ended_well(child)?;
        Ok(answers)
    }

    /// Waits for the end of the program, which has to have status 0.
    pub fn ended_well(&self, mut child: Child) -> Result<(), String> {
        match child.wait() {
            Ok(status) if status.success() => Ok(()),
            Ok(status) => Err(self.message(&format!("it ended with {status}{}", pipes::said()))),
            Err(error) => Err(self.message(&error.to_string())),
        }
    }

    pub fn message(&self, text: &str) -> String {
        format!("{}: {text}", self.command.join(" "))
    }
}

/// A program may end before all of its input is read: after refusal 5 or 6.
fn stopped_reading(error: &io::Error) -> bool {
    error.kind() == io::ErrorKind::BrokenPipe
}
