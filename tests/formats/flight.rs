//! Records and answers, laid out and taken apart by README's tables alone.

use crate::tables::{Formats, Layout};

pub const CONFIGURE: u8 = 1;
pub const PRIME: u8 = 2;
pub const RATE: u8 = 4;
pub const WAYPOINT: u8 = 5;
pub const WIND: u8 = 9;

/// The time step of a call that is not told another, in seconds.
const STEP_S: f32 = 1.0 / 64.0;

/// A record's values by name. What is not named is 0, but for an upright attitude and a time step.
pub type Named<'a> = [(&'a str, f32)];

/// The number of a refusal and its field.
pub type Refusal = (u8, u8);

/// How many bytes a value takes.
pub fn size(formats: &Formats, name: &str) -> usize {
    match name {
        "state" => 4 * formats.state.len(),
        "fields" => 4 * formats.fields.len(),
        "flags" | "number" | "field" => 1,
        _ if is_mark(name) => 1,
        _ => 4,
    }
}

pub fn is_mark(name: &str) -> bool {
    name.starts_with("mark of ")
}

/// A configure record of the tables' defaults with some fields replaced.
pub fn configure(formats: &Formats, replaced: &Named) -> Result<Vec<u8>, String> {
    let mut record = blank(formats.record(CONFIGURE)?);
    for field in &formats.fields {
        set(&mut record, field.value.at, &field.default.to_le_bytes())?;
    }
    for (name, value) in replaced {
        let field = formats.fields.iter().find(|field| field.value.name == *name);
        let field = field.ok_or(format!("there is no field '{name}'"))?;
        set(&mut record, field.value.at, &value.to_le_bytes())?;
    }
    Ok(record)
}

/// A record of another kind with its values.
pub fn record(formats: &Formats, kind: u8, values: &Named) -> Result<Vec<u8>, String> {
    let layout = formats.record(kind)?;
    let mut record = blank(layout);
    let usual = [("T", STEP_S), ("attitude.w", 1.0)];
    let usual = usual.iter().filter(|(name, _)| place(formats, layout, name).is_some());
    for (name, value) in usual.chain(values) {
        let at = place(formats, layout, name).ok_or(format!("kind {kind} has no '{name}'"))?;
        let bytes = if is_mark(name) { vec![*value as u8] } else { value.to_le_bytes().to_vec() };
        set(&mut record, at, &bytes)?;
    }
    Ok(record)
}

/// A record of any kind. A configuration has the tables' defaults where no other value is named.
pub fn record_of(formats: &Formats, kind: u8, values: &Named) -> Result<Vec<u8>, String> {
    if kind == CONFIGURE { configure(formats, values) } else { record(formats, kind, values) }
}

/// A configuration by the defaults, and a record after it.
pub fn after_configuring(formats: &Formats, kind: u8, values: &Named) -> Result<Vec<Vec<u8>>, String> {
    Ok(vec![configure(formats, &[])?, record_of(formats, kind, values)?])
}

/// The last record of a flight as hexadecimal digits.
pub fn shown(flight: &[Vec<u8>]) -> String {
    flight.last().into_iter().flatten().map(|byte| format!("{byte:02x}")).collect()
}

/// Zeros after the byte of kind.
fn blank(layout: &Layout) -> Vec<u8> {
    let mut record = vec![0; layout.bytes];
    if let Some(kind) = record.first_mut() {
        *kind = layout.number;
    }
    record
}

/// Where a value stands in a record, those of its state among them.
pub fn place(formats: &Formats, layout: &Layout, name: &str) -> Option<usize> {
    let in_state = || {
        let value = formats.state.iter().find(|value| value.name == name)?;
        Some(layout.place("state")? + value.at)
    };
    layout.place(name).or_else(in_state)
}

fn set(record: &mut [u8], at: usize, bytes: &[u8]) -> Result<(), String> {
    let length = record.len();
    let part = record.get_mut(at..at + bytes.len()).ok_or(format!("place {at} is past a record of {length} bytes"))?;
    part.copy_from_slice(bytes);
    Ok(())
}

/// The answers in what the program wrote, each of the length that its number has in the table.
pub fn answers<'a>(formats: &Formats, written: &'a [u8]) -> Result<Vec<&'a [u8]>, String> {
    let mut rest = written;
    let mut answers = Vec::new();
    while let Some(number) = rest.first() {
        let length = formats.answer(*number)?.bytes.max(1);
        let (answer, after) = rest.split_at_checked(length).ok_or(format!("answer {number} is cut short"))?;
        answers.push(answer);
        rest = after;
    }
    Ok(answers)
}

/// A float of an answer by its name.
pub fn float(formats: &Formats, answer: &[u8], name: &str) -> Result<f32, String> {
    let number = answer[0];
    let at = formats.answer(number)?.place(name).ok_or(format!("answer {number} has no '{name}'"))?;
    let bytes = answer.get(at..at + 4).ok_or(format!("'{name}' is past answer {number}"))?;
    Ok(f32::from_le_bytes(bytes.try_into().expect("four bytes")))
}

/// A byte of an answer by its name.
pub fn byte(formats: &Formats, answer: &[u8], name: &str) -> Result<u8, String> {
    let number = answer[0];
    let at = formats.answer(number)?.place(name).ok_or(format!("answer {number} has no '{name}'"))?;
    answer.get(at).copied().ok_or(format!("'{name}' is past answer {number}"))
}

/// The number of a refusal and its field, where an answer is one.
pub fn refusal(formats: &Formats, answer: &[u8]) -> Result<Option<Refusal>, String> {
    const REFUSAL: u8 = 3;
    if answer[0] != REFUSAL {
        return Ok(None);
    }
    Ok(Some((byte(formats, answer, "number")?, byte(formats, answer, "field")?)))
}

/// A refusal in words.
pub fn told(refusal: Option<Refusal>) -> String {
    match refusal {
        None => "no refusal".into(),
        Some((number, 0)) => format!("refusal {number}"),
        Some((number, field)) => format!("refusal {number} of field {field}"),
    }
}
