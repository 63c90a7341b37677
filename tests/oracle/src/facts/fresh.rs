//! A fresh craft with the configuration, wind memory and heading of one that has just flown
//! kind 6 or 8 flies on as that one does.

use super::Facts;
use crate::craft::Craft;
use crate::generate::flights::{Flights, Kind};
use crate::records::{ABSOLUTE_ATTITUDE, ABSOLUTE_RATE, Answer};
use crate::words::Writer;

const RECORDS: usize = 300_000;

pub fn check(facts: &mut Facts) {
    let mut flights = Flights::new(1, Kind::Mixed);
    let mut craft = Craft::default();
    let mut fresh = None;
    let (mut replaced, mut compared, mut different) = (0, 0, 0);
    for _ in 0..RECORDS {
        let record = flights.next_record(false);
        let answer = craft.answer(record[0], &record[1..]);
        if let Some(fresh) = &mut fresh {
            compared += 1;
            different += usize::from(bytes(answer) != bytes(answer_of(fresh, &record)));
        }
        let ends = matches!(record[0], ABSOLUTE_ATTITUDE | ABSOLUTE_RATE);
        if ends && !matches!(answer, Answer::Refused(_)) {
            replaced += 1;
            let guidance = craft.guidance.as_ref().map(|g| g.fresh_with_wind_and_heading());
            fresh = Some(Craft { guidance });
        }
    }
    facts.same("answers of a fresh craft that differ", different, 0);
    println!("a fresh craft took over {replaced} times, {compared} answers compared");
}

fn answer_of(craft: &mut Craft, record: &[u8]) -> Answer {
    craft.answer(record[0], &record[1..])
}

fn bytes(answer: Answer) -> Vec<u8> {
    let mut out = Writer::default();
    answer.write(&mut out);
    out.bytes
}
