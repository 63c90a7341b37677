//! Times whole flights in memory, the port beside the Rust: records in, answers out, parsing and writing on both sides.
//!
//! Standard input is a flight of the oracle's generator. The answers of both sides are compared first.

mod timing;

use std::hint::black_box;
use std::io::Read;

use oracle_parts::craft::Craft;
use oracle_parts::records::body_length;
use oracle_parts::words::Writer;

// The port, from the static library of crates/flight_c. A slice is a pointer and a length.
unsafe extern "C" {
    fn tarragonhoe_fly(bytes: *const u8, length: usize, out: *mut u8, room: usize) -> usize;
}

fn port(flight: &[u8], out: &mut [u8]) -> usize {
    unsafe { tarragonhoe_fly(flight.as_ptr(), flight.len(), out.as_mut_ptr(), out.len()) }
}

/// The records of a flight, each with its kind.
fn records(flight: &[u8]) -> Vec<&[u8]> {
    let mut list = Vec::new();
    let mut rest = flight;
    while let [kind, ..] = rest {
        let (record, after) = rest.split_at(1 + body_length(*kind).expect("a known kind"));
        list.push(record);
        rest = after;
    }
    list
}

/// The Rust's guidance on the same bytes.
fn reference(flight: &[u8], out: &mut Writer) {
    let mut craft = Craft::default();
    let mut rest = flight;
    while let [kind, after @ ..] = rest {
        let (body, next) = after.split_at(body_length(*kind).expect("a known kind"));
        craft.answer(*kind, body).write(out);
        rest = next;
    }
}

/// A flight of the records whose kinds are given.
fn only(flight: &[u8], kinds: &[u8]) -> Vec<u8> {
    records(flight).into_iter().filter(|record| kinds.contains(&record[0])).collect::<Vec<_>>().concat()
}

fn time(name: &str, flight: &[u8]) {
    let count = records(flight).len();
    let mut theirs = Writer::default();
    reference(flight, &mut theirs);
    let mut ours = vec![0; theirs.bytes.len() + 25];
    let written = port(flight, &mut ours);
    assert_eq!(ours[..written], theirs.bytes, "{name}: the answers differ");
    let fly = |flight: &&[u8]| {
        black_box(port(black_box(flight), &mut ours));
    };
    let fly_reference = |flight: &&[u8]| {
        theirs.bytes.clear();
        reference(black_box(flight), &mut theirs);
        black_box(&theirs.bytes);
    };
    timing::compare_each(name, &[flight], 1, count, fly, fly_reference);
}

fn main() {
    let mut flight = Vec::new();
    std::io::stdin().read_to_end(&mut flight).expect("a flight on standard input");
    println!("{:34} port / reference", "");
    time("flight, waypoint calls", &only(&flight, &[1, 2, 5]));
    time("flight, land calls", &only(&flight, &[1, 2, 7]));
    time("flight, attitude calls", &only(&flight, &[1, 2, 3]));
    time("flight, rate calls", &only(&flight, &[1, 2, 8]));
    time("flight, all kinds", &flight);
}
