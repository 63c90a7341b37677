//! Feeds the port's program and the oracle the same calls, in batches, and compares their answers word by word.

use std::io::{self, Read, Write};
use std::process::{Child, ChildStdin, Command};
use std::sync::mpsc::{SyncSender, sync_channel};
use std::thread;

use oracle_parts::generate::inputs::Kind;
use oracle_parts::words::Writer;

use crate::calls::{self, Ported, SEED, is_zero, words};
use crate::mix::mix;
use crate::pipes::{said, start};
use crate::progress::Progress;

/// The least bytes of entries in a batch. The program reads as many at a time, so that the batches that follow one always
/// bring its answers out.
const BATCH_BYTES: usize = 1 << 16;

/// Batches that may wait for their comparison.
const WAITING: usize = 4;

/// What was found of one function.
#[derive(Default)]
struct Tally {
    calls: u64,
    differences: u64,
    digest: u64,
    first: Option<String>,
}

/// Compares every function on `calls` calls, split over the kinds, and prints a line for each. Gives whether nothing
/// differed.
pub fn run(command: &[&str], calls: u64) -> Result<bool, String> {
    let calls = calls.div_ceil(calls::kinds().count() as u64);
    let mut differences = 0;
    for ported in calls::ported() {
        let name = ported.function.name;
        let mut tally = Tally::default();
        let progress = Progress::new(name, calls * calls::kinds().count() as u64, "calls");
        for kind in calls::kinds() {
            compare(command, ported, kind, calls, &progress, &mut tally)
                .map_err(|error| format!("{} with {name}: {error}{}", command.join(" "), said()))?;
        }
        println!("{name}: {} calls, {} differences, digest {:016x}", tally.calls, tally.differences, tally.digest);
        if let Some(first) = tally.first {
            println!("{first}");
        }
        differences += tally.differences;
    }
    println!("{differences} differences");
    Ok(differences == 0)
}

/// Compares one function on inputs of one kind. Both sides start with fresh memory.
fn compare(
    command: &[&str],
    ported: Ported,
    (kind_name, kind): (&str, Kind),
    calls: u64,
    progress: &Progress,
    tally: &mut Tally,
) -> io::Result<()> {
    let (child, stdin, mut stdout) = start(&mut program(command))?;
    let (sender, batches) = sync_channel(WAITING);
    let feeder = thread::spawn(move || feed(stdin, ported, kind, calls, sender));
    let mut call = (ported.function.start)();
    let (mut ours, mut theirs) = (Vec::new(), Writer::default());
    let before = tally.calls;
    for entries in batches {
        theirs.bytes.clear();
        for entry in entries.chunks_exact(ported.entry_bytes()) {
            calls::answer(&mut call, entry, &mut theirs);
        }
        ours.resize(theirs.bytes.len(), 0);
        stdout.read_exact(&mut ours)?;
        let place = |calls: u64| format!("call {} of kind {kind_name}, seed {SEED}", calls - before);
        tally.batch(ported, &entries, &ours, &theirs.bytes, place);
        progress.add((entries.len() / ported.entry_bytes()) as u64);
    }
    feeder.join().expect("the feeder ended")?;
    finish(child, &mut stdout)
}

/// Writes the entries of all calls to the program, and hands each batch on.
fn feed(mut stdin: ChildStdin, ported: Ported, kind: Kind, calls: u64, sender: SyncSender<Vec<u8>>) -> io::Result<()> {
    let mut inputs = ported.inputs(kind);
    let mut entries = Vec::new();
    for left in (0..calls).rev() {
        ported.put_entry(inputs.next_call(), &mut entries);
        if entries.len() >= BATCH_BYTES || left == 0 {
            stdin.write_all(&entries)?;
            if sender.send(std::mem::take(&mut entries)).is_err() {
                break;
            }
        }
    }
    Ok(())
}

/// The program and its arguments.
pub fn program(command: &[&str]) -> Command {
    let mut program = Command::new(command[0]);
    program.args(&command[1..]);
    program
}

/// The program has to have written nothing more, and to end well.
pub fn finish(mut child: Child, stdout: &mut impl Read) -> io::Result<()> {
    let mut more = Vec::new();
    stdout.read_to_end(&mut more)?;
    if !more.is_empty() || !child.wait()?.success() {
        return Err(io::Error::other("it wrote too much or ended badly"));
    }
    Ok(())
}

impl Tally {
    /// Takes in the answers of both sides to a batch of entries. `place` says which call a difference is at.
    fn batch(&mut self, ported: Ported, entries: &[u8], ours: &[u8], theirs: &[u8], place: impl Fn(u64) -> String) {
        let (entry, answer) = (ported.entry_bytes(), ported.answer_bytes());
        let answers = ours.chunks_exact(answer).zip(theirs.chunks_exact(answer));
        for (entry, (ours, theirs)) in entries.chunks_exact(entry).zip(answers) {
            for word in words(ours) {
                self.digest = mix(self.digest ^ u64::from(word));
            }
            if ours != theirs && !alike(ported, entry, ours, theirs) {
                self.differences += 1;
                let calls = self.calls;
                self.first.get_or_insert_with(|| difference(&place(calls), entry, ours, theirs));
            }
            self.calls += 1;
        }
    }
}

/// Whether two answers differ only in zeros whose sign is open.
fn alike(ported: Ported, entry: &[u8], ours: &[u8], theirs: &[u8]) -> bool {
    let mut pairs = words(ours).zip(words(theirs));
    calls::zero_is_open(ported, entry) && pairs.all(|(a, b)| a == b || is_zero(a) && is_zero(b))
}

fn difference(place: &str, entry: &[u8], ours: &[u8], theirs: &[u8]) -> String {
    let text = |bytes: &[u8]| words(bytes).map(|word| format!(" {word:08x}")).collect::<String>();
    format!("  {place}\n  input: {}\n  port:  {}\n  oracle:{}", text(&entry[1..]), text(ours), text(theirs))
}
