//! The fixed list that crates/replay is run on: some calls of every function and kind, and the oracle's answers. A call whose
//! answer has a zero of open sign is left out, since the list is compared bit by bit.

use std::fs;

use oracle_parts::functions::Role;
use oracle_parts::words::Writer;

use crate::calls;

/// Calls of each kind for a function that keeps no memory.
const CALLS: usize = 30;

/// Calls of each kind for a function that does.
const CALLS_WITH_MEMORY: usize = 150;

/// A function's memory goes on from kind to kind, as the program's does.
pub fn write(stdin: &str, stdout: &str) -> Result<(), String> {
    let (mut entries, mut answers) = (Vec::new(), Writer::default());
    for ported in calls::ported() {
        let has_memory = matches!(ported.function.roles[0], Role::Choice(_));
        let calls = if has_memory { CALLS_WITH_MEMORY } else { CALLS };
        let mut call = (ported.function.start)();
        for (_, kind) in calls::kinds() {
            let mut inputs = ported.inputs(kind);
            for _ in 0..calls {
                let (entry, answer) = (entries.len(), answers.bytes.len());
                ported.put_entry(inputs.next_call(), &mut entries);
                calls::answer(&mut call, &entries[entry..], &mut answers);
                let has_zero = calls::words(&answers.bytes[answer..]).any(calls::is_zero);
                if has_zero && calls::zero_is_open(ported, &entries[entry..]) {
                    entries.truncate(entry);
                    answers.bytes.truncate(answer);
                }
            }
        }
    }
    let put = |path, bytes: &[u8]| fs::write(path, bytes).map_err(|error| format!("{path}: {error}"));
    put(stdin, &entries)?;
    put(stdout, &answers.bytes)
}
