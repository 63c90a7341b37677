//! The rule of each field at the edges of all rules: the default configuration with that field replaced is flown, and
//! has to be taken or refused as the table's rule says.

use crate::flight::{self, answers, configure};
use crate::rule::NAMED;
use crate::tables::Formats;
use crate::{Found, Reference};

/// The refusal of a field.
const BROKEN: u8 = 1;

pub fn check(formats: &Formats, reference: &Reference, found: &mut Found) -> Result<(), String> {
    let values = edges();
    let cases = || formats.fields.iter().flat_map(|field| values.iter().map(move |value| (field, *value)));
    let records = cases().map(|(field, value)| configure(formats, &[(&field.value.name, value)]));
    let written = reference.program.fly(&records.collect::<Result<Vec<_>, _>>()?.concat())?;
    let answers = answers(formats, &written)?;
    let count = cases().count();
    found.expect(answers.len() == count, || format!("{} answers to {count} configurations", answers.len()));
    for ((field, value), answer) in cases().zip(answers) {
        let expected = if field.rule.takes(value) { None } else { Some((BROKEN, field.value.number as u8)) };
        let answered = flight::refusal(formats, answer)?;
        found.at(field.value.line, answered == expected, || {
            let (rule, bits) = (&field.rule_text, value.to_bits());
            let [answered, expected] = [answered, expected].map(flight::told);
            format!("{value:e} ({bits:08X}) under '{rule}' gets {answered}, and not {expected}")
        });
    }
    found.done("fields at the edges of their rules", count);
    Ok(())
}

/// Bounds of rules and of the floats with their neighbours, of both signs, and NaNs.
fn edges() -> Vec<f32> {
    let exact = [0.0, f32::MIN_POSITIVE, 0.5, 1.0, 2.0, 1024.0, f32::MAX, f32::INFINITY];
    let bounds = exact.into_iter().chain(NAMED.map(|(_, value)| value)).map(f32::to_bits);
    let near = bounds.flat_map(|bits| [bits.saturating_sub(1), bits, bits + 1]);
    let signed = near.flat_map(|bits| [bits, bits | 1 << 31]);
    let nans = [f32::NAN.to_bits(), 0x7F80_0001, 0x7FFF_FFFF, 0xFFC0_0000, 0xFFFF_FFFF];
    let mut all: Vec<u32> = signed.chain(nans).collect();
    all.sort();
    all.dedup();
    all.into_iter().map(f32::from_bits).collect()
}
