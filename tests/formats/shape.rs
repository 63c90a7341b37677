//! What the tables have to be by themselves: numbered from the first to the last, places one after the other, units as
//! the names say, and the configuration's names, defaults and bits as in the definitions and the worked flight.

use crate::flight::{CONFIGURE, size};
use crate::rule::NAMED;
use crate::tables::{Field, Formats, Layout, Value, between};
use crate::{Found, Reference};

/// The fields that the worked flight has at 0 for the Rust's defaults.
const ZERO_IN_WORKED: std::ops::RangeInclusive<usize> = 46..=50;

/// The units that a name ends with, longest first.
const UNITS: [(&str, &str); 10] = [
    ("_mps_per_rt_s", "m/s/√s"),
    ("_kgpm2", "kg/m²"),
    ("_per_s", "1/s"),
    ("_radps", "rad/s"),
    ("_mps2", "m/s²"),
    ("_mps", "m/s"),
    ("_rad", "rad"),
    ("_m", "m"),
    ("_s", "s"),
    ("thrust", "1"),
];

pub fn check(formats: &Formats, reference: &Reference, found: &mut Found) -> Result<(), String> {
    let fields: Vec<&Value> = formats.fields.iter().map(|field| &field.value).collect();
    let state: Vec<&Value> = formats.state.iter().collect();
    let end = one_after_the_other(&state, 0, found);
    found.expect(end == 60, || format!("the state ends at {end}, and not at 60"));
    let end = one_after_the_other(&fields, 1, found);
    let bytes = formats.record(CONFIGURE)?.bytes;
    found.expect(end == bytes, || format!("the fields end at {end}, and the record at {bytes}"));
    found.done("places of values and fields", state.len() + fields.len());
    let named = state.iter().chain(&fields).filter(|value| unit_as_named(value, found)).count();
    found.done("units that names tell", named);
    for layout in formats.records.iter().chain(&formats.answers) {
        tiled(formats, layout, found);
    }
    found.done("layouts of records and answers", formats.records.len() + formats.answers.len());
    numbered(formats, found);
    defined(formats, &reference.definitions, found)?;
    for field in &formats.fields {
        as_in_worked(field, &reference.worked, found);
    }
    found.done("defaults, as in Config.antt and the worked flight", fields.len());
    example(formats, found)
}

/// Values numbered from 1 on and standing one after the other. Gives where they end.
fn one_after_the_other(values: &[&Value], start: usize, found: &mut Found) -> usize {
    for (index, value) in values.iter().enumerate() {
        let (number, at) = (index + 1, start + 4 * index);
        found.at(value.line, value.number == number, || format!("its number is {number}"));
        found.at(value.line, value.at == at, || format!("its place is {at}"));
    }
    start + 4 * values.len()
}

/// The unit that a name tells, if it does.
pub fn unit_of(name: &str) -> Option<&'static str> {
    let name = name.trim_end_matches(".x").trim_end_matches(".y").trim_end_matches(".z");
    UNITS.iter().find(|(end, _)| name.ends_with(end)).map(|(_, unit)| *unit)
}

/// Whether the name tells a unit; the row has to have that one.
fn unit_as_named(value: &Value, found: &mut Found) -> bool {
    let Some(unit) = unit_of(&value.name) else { return false };
    found.at(value.line, value.unit == unit, || format!("the unit of '{}' is {unit}", value.name));
    true
}

/// The places of a record or an answer leave no byte out.
fn tiled(formats: &Formats, layout: &Layout, found: &mut Found) {
    let mut end = 1;
    for place in &layout.places {
        found.at(layout.line, place.at == end, || format!("'{}' stands at {end}", place.name));
        end = place.at + size(formats, &place.name);
    }
    found.at(layout.line, end == layout.bytes, || format!("it ends at {end}, and not at {}", layout.bytes));
}

/// Kinds, answers, bits and refusals, and what calls are told.
fn numbered(formats: &Formats, found: &mut Found) {
    let numbers = |layouts: &[Layout]| layouts.iter().map(|layout| layout.number).collect::<Vec<u8>>();
    found.expect(numbers(&formats.records).into_iter().eq(1..=9), || "the kinds are not 1 to 9".into());
    found.expect(numbers(&formats.answers).into_iter().eq(1..=6), || "the answers are not 1 to 6".into());
    for record in &formats.records {
        let told = formats.asked.iter().filter(|asked| asked.kinds.contains(&record.number));
        let mut told: Vec<&String> = told.flat_map(|asked| &asked.names).collect();
        let own = |name: &&String| !["T", "state", "fields"].contains(&name.as_str()) && !name.starts_with("mark of ");
        let mut placed: Vec<&String> = record.places.iter().map(|place| &place.name).filter(own).collect();
        told.sort();
        placed.sort();
        found.at(record.line, told == placed, || format!("its values are told to be {told:?}"));
    }
    let constants = NAMED.map(|(_, value)| format!("{:08X}", value.to_bits())).join(", ");
    found.expect(formats.text.contains(&constants), || format!("0.2, π/2 and π are not said to be {constants}"));
}

/// Names, bits and decimals beside the definitions of copter.
fn defined(formats: &Formats, definitions: &str, found: &mut Found) -> Result<(), String> {
    let list = between(definitions, "\nfields =\n", "[]")?;
    let names = names(definitions)?;
    let defaults: Vec<u32> = list.lines().filter_map(default_of).collect();
    let counts = [names.len(), defaults.len(), formats.fields.len()];
    found.expect(counts == [counts[0]; 3], || format!("names, defaults and rows are {counts:?}"));
    for ((field, name), default) in formats.fields.iter().zip(names).zip(defaults) {
        let line = field.value.line;
        found.at(line, field.value.name == name, || format!("its name is '{name}'"));
        found.at(line, field.bits == default, || format!("the bits of its default are {default:08X}"));
        found
            .at(line, field.default.to_bits() == field.bits, || format!("{} is not {:08X}", field.default, field.bits));
    }
    Ok(())
}

/// The names of the fields in their order, as the Rust has them: the port keeps what stands beside the loops' own
/// configurations in parts of its own.
fn names(definitions: &str) -> Result<Vec<String>, String> {
    let list = between(definitions, "\nfields_of config =\n", "[]")?;
    let paths = list.split('∷').map(str::trim).filter_map(|path| path.strip_prefix("config."));
    Ok(paths.map(|path| path.trim_start_matches("guidance.").trim_start_matches("heading.").to_string()).collect())
}

/// The bits of a default in a line such as `∷ field Limit 0x3F00_0000  -- 7 position_p, 0.5`.
fn default_of(line: &str) -> Option<u32> {
    let bits = line.split_once("field ")?.1.split(' ').nth(1)?;
    u32::from_str_radix(&bits.trim_start_matches("0x").replace('_', ""), 16).ok()
}

fn as_in_worked(field: &Field, worked: &[u8], found: &mut Found) {
    let Value { at, line, number, .. } = field.value;
    let expected = if ZERO_IN_WORKED.contains(&number) { 0 } else { field.bits };
    let there = worked.get(at..at + 4).map(|bytes| u32::from_le_bytes(bytes.try_into().expect("four bytes")));
    found.at(line, there == Some(expected), || format!("the worked flight has {there:08X?} at {at}"));
}

/// The commands that write a configure record.
fn example(formats: &Formats, found: &mut Found) -> Result<(), String> {
    let bytes = formats.record(CONFIGURE)?.bytes;
    let head = format!("head -c {bytes} tests/flights/worked");
    found.expect(formats.text.contains(&head), || format!("there is no '{head}'"));
    let at = between(&formats.text, "bs=1 seek=", " ")?;
    let field = formats.fields.iter().find(|field| field.value.at.to_string() == at);
    let hover = field.is_some_and(|field| field.value.name == "altitude.hover_thrust");
    found.expect(hover, || format!("seek={at} is not the place of the hover thrust"));
    let written = between(&formats.text, "printf '\\", "'")?.split('\\').map(|octal| u8::from_str_radix(octal, 8));
    let expected = 0.35_f32.to_le_bytes();
    found.expect(written.eq(expected.map(Ok)), || "printf does not write 0.35".into());
    found.done("commands of the example", 2);
    Ok(())
}
