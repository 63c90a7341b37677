//! Refusals: each comes with the number that its reason has in the table, at the limits that the table gives and at the
//! places that the records have, and of two the one that stands first in the order.

use crate::flight::{self, CONFIGURE, Named, PRIME, RATE, Refusal, WAYPOINT, after_configuring, record_of};
use crate::program::Program;
use crate::tables::Formats;
use crate::{Found, Reference};

/// Some words of each refusal's reason, by its number.
const REASONS: [&str; 9] = [
    "a field of a configuration",
    "the time step",
    "the estimated heading",
    "kind 4 is not",
    "the kind is not",
    "cut short",
    "no craft",
    "a mark",
    "the answer buffer",
];

/// Limits, with the floats next to them outside.
const LEAST_STEP: f32 = 1.0 / 4096.0;
const LARGEST: f32 = 1024.0;

/// Values of a state or a call, and the number of the refusal that each gets; 0 where it is taken.
const VALUES: [(&str, f32, u8); 18] = [
    ("T", LEAST_STEP, 0),
    ("T", LEAST_STEP.next_down(), 2),
    ("T", 1.0, 0),
    ("T", 1.0_f32.next_up(), 2),
    ("T", 0.0, 2),
    ("T", f32::INFINITY, 2),
    ("T", f32::NAN, 2),
    ("heading_rad", LARGEST, 0),
    ("heading_rad", LARGEST.next_up(), 3),
    ("heading_rad", -LARGEST, 0),
    ("heading_rad", -LARGEST.next_up(), 3),
    ("heading_rad", f32::MAX, 3),
    ("heading_rad", f32::INFINITY, 0),
    ("heading_rad", f32::NAN, 0),
    ("mark of velocity", 1.0, 0),
    ("mark of velocity", 2.0, 8),
    ("mark of heading", 1.0, 0),
    ("mark of heading", 255.0, 8),
];

/// A flight and what its last record is for.
type Case<N> = (Vec<Vec<u8>>, N);

pub fn check(formats: &Formats, reference: &Reference, found: &mut Found) -> Result<(), String> {
    reasons(formats, found)?;
    let cases = [limits(formats)?, others(formats)?].concat();
    for (flight, expected) in &cases {
        let answer = last(formats, &reference.program, flight)?;
        found.expect(answer == *expected, || {
            let (record, [answer, expected]) = (flight::shown(flight), [answer, *expected].map(flight::told));
            format!("{record} gets {answer}, and not {expected}")
        });
    }
    found.done("records at the limits of each refusal but 9", cases.len());
    order(formats, &reference.program, found)?;
    for byte in (0..=u8::MAX).filter(|byte| formats.record(*byte).is_err()) {
        let answer = last(formats, &reference.program, &[vec![byte]])?;
        found
            .expect(answer == Some((5, 0)), || format!("kind {byte} gets {}, and not refusal 5", flight::told(answer)));
    }
    found.done("bytes that are no kind", 256 - formats.records.len());
    Ok(())
}

/// The refusal that a flight ends with, or none.
fn last(formats: &Formats, program: &Program, flight: &[Vec<u8>]) -> Result<Option<Refusal>, String> {
    let written = program.fly(&flight.concat())?;
    let last = flight::answers(formats, &written)?.pop().ok_or("the program answers nothing")?;
    flight::refusal(formats, last)
}

/// Each reason stands at its number.
fn reasons(formats: &Formats, found: &mut Found) -> Result<(), String> {
    for (number, reason) in (1..).zip(REASONS) {
        let row = formats.refusals.iter().find(|row| row.text.contains(reason));
        let row = row.ok_or(format!("no refusal has '{reason}'"))?;
        found.at(row.line, row.number == number, || format!("this is refusal {number}"));
    }
    found.expect(formats.refusals.len() == REASONS.len(), || "there are other refusals than 1 to 9".into());
    Ok(())
}

/// Each of the values in each kind that has it.
fn limits(formats: &Formats) -> Result<Vec<Case<Option<Refusal>>>, String> {
    let kinds = formats.records.iter().filter(|layout| layout.number != CONFIGURE);
    let pairs = kinds.flat_map(|layout| VALUES.iter().map(move |value| (layout, value)));
    let had = pairs.filter(|(layout, (name, ..))| flight::place(formats, layout, name).is_some());
    let cases = had.map(|(layout, (name, value, number))| {
        let flight = after_configuring(formats, layout.number, &[(name, *value)])?;
        Ok((flight, (*number != 0).then_some((*number, 0))))
    });
    cases.collect()
}

/// A case of each other refusal.
fn others(formats: &Formats) -> Result<Vec<Case<Option<Refusal>>>, String> {
    let bare = |kind| Ok((vec![record_of(formats, kind, &[])?], Some((7, 0))));
    let mut cases: Vec<Case<Option<Refusal>>> = (2..=9).map(bare).collect::<Result<_, String>>()?;
    cases.push((after_configuring(formats, RATE, &[])?, Some((4, 0))));
    cases.push((vec![vec![WAYPOINT]], Some((6, 0))));
    let two: &Named = &[("lateral.position_p", f32::NAN), ("altitude.gains.d", -1.0)];
    cases.push((vec![record_of(formats, CONFIGURE, two)?], Some((1, 3))));
    Ok(cases)
}

/// Records that break two checks get the one that stands first in the order.
fn order(formats: &Formats, program: &Program, found: &mut Found) -> Result<(), String> {
    let mut sorted = formats.order.clone();
    sorted.sort();
    found.expect(sorted.into_iter().eq(1..=9), || "the order does not have 1 to 9 once each".into());
    let cases = twice_broken(formats)?;
    for (flight, two) in &cases {
        let answer = last(formats, program, flight)?.map(|(number, _)| number);
        let expected = formats.order.iter().find(|number| two.contains(number)).copied();
        found.expect(answer == expected, || {
            format!("a record for refusals {two:?} gets {answer:?}, by the order {expected:?}")
        });
    }
    found.done("records that break two checks", cases.len());
    Ok(())
}

fn twice_broken(formats: &Formats) -> Result<Vec<Case<[u8; 2]>>, String> {
    let (step, heading, mark) = (("T", 2.0), ("heading_rad", 2048.0), ("mark of velocity", 2.0));
    let bare = |kind, values: &Named| Ok::<_, String>(vec![record_of(formats, kind, values)?]);
    let cut = |kind, values: &Named| {
        let mut record = record_of(formats, kind, values)?;
        record.pop();
        Ok::<_, String>(vec![record])
    };
    Ok(vec![
        (vec![vec![10]], [5, 6]),
        (vec![vec![10]], [5, 7]),
        (cut(CONFIGURE, &[("altitude.gains.p", -1.0)])?, [6, 1]),
        (cut(WAYPOINT, &[])?, [6, 7]),
        (bare(RATE, &[])?, [7, 4]),
        (bare(WAYPOINT, &[mark])?, [7, 8]),
        (bare(WAYPOINT, &[step])?, [7, 2]),
        (bare(PRIME, &[heading])?, [7, 3]),
        (after_configuring(formats, WAYPOINT, &[mark, step])?, [8, 2]),
        (after_configuring(formats, WAYPOINT, &[mark, heading])?, [8, 3]),
        (after_configuring(formats, WAYPOINT, &[step, heading])?, [2, 3]),
    ])
}
