//! Records and answers: each kind is taken at its length and no shorter, and answered as README says, by answers of the
//! table's lengths; each flag comes alone.

use crate::flight::{self, Named, WAYPOINT, WIND, after_configuring, answers, record_of};
use crate::program::Program;
use crate::tables::Formats;
use crate::{Found, Reference};

/// The answers that each kind may get after a configuration, by its number.
const ANSWERED_BY: [&[u8]; 10] = [&[], &[4], &[4], &[1], &[3], &[1], &[1], &[1], &[2], &[5, 6]];

pub fn check(formats: &Formats, reference: &Reference, found: &mut Found) -> Result<(), String> {
    for kind in 1..=9 {
        length(formats, &reference.program, kind, found)?;
    }
    found.done("kinds taken at their length and refused a byte shorter", 9);
    flags(formats, &reference.program, found)
}

/// A record of a kind's length leaves what follows it in place; a byte shorter it is refused with 6.
fn length(formats: &Formats, program: &Program, kind: u8, found: &mut Found) -> Result<(), String> {
    let line = formats.record(kind)?.line;
    let mut flight = after_configuring(formats, kind, &[])?;
    let shorter = [&flight[0][..], &flight[1][..flight[1].len().max(1) - 1]].concat();
    flight.push(record_of(formats, WIND, &[])?);
    let written = program.fly(&flight.concat())?;
    let numbers: Vec<u8> = answers(formats, &written)?.iter().map(|answer| answer[0]).collect();
    let good = matches!(numbers[..], [4, own, 5] if ANSWERED_BY[kind as usize].contains(&own));
    found.at(line, good, || format!("between a configuration and a reading it is answered {numbers:?}"));
    let written = program.fly(&shorter)?;
    let answers = answers(formats, &written)?;
    // Nothing is left of a record of one byte.
    let expected: &[u8] = if shorter.len() > flight[0].len() { &[3, 6, 0] } else { &[4] };
    found.at(line, answers.last() == Some(&expected), || format!("a byte shorter it is answered {answers:?}"));
    Ok(())
}

/// A record for each flag, which sets that one alone, and one for none.
fn flags(formats: &Formats, program: &Program, found: &mut Found) -> Result<(), String> {
    let cases: [(&str, u8, &Named); 4] = [
        ("tilt saturated", WAYPOINT, &[("position x", 1000.0)]),
        ("thrust saturated", 6, &[("thrust", 2.0)]),
        ("idle", 8, &[("thrust", 0.05)]),
        ("none", 6, &[("thrust", 0.5)]),
    ];
    for (name, kind, values) in cases {
        let written = program.fly(&after_configuring(formats, kind, values)?.concat())?;
        let answer = answers(formats, &written)?.pop().ok_or("the program answers nothing")?;
        let flags = flight::byte(formats, answer, "flags")?;
        let row = formats.flags.iter().find(|row| row.text == name);
        let expected = row.map_or(0, |row| 1 << row.number.min(7));
        found.expect(flags == expected, || format!("flags for '{name}' are {flags}, and not {expected}"));
    }
    found.expect(formats.flags.len() == 3, || "there are other flags than three".into());
    found.done("flags, each alone", 3);
    Ok(())
}
