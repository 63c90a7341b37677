//! The tables of README's section "The formats", read as they stand.

use crate::rule::Rule;

const SECTION: &str = "## The formats";

const STATE: &str = "| n | place | name | unit | positive, and what it is | read for |";
const RECORDS: &str = "| kind | record | bytes | places |";
const ASKED: &str = "| kind | value | unit | what it asks for |";
const ANSWERS: &str = "| answer | what | bytes | places |";
const FLAGS: &str = "| bit | flag | set where |";
const REFUSALS: &str = "| refusal | why |";
const FIELDS: &str = "| n | place | name | unit | rule | default | bits | what it is |";

pub struct Formats {
    /// The lines of the section, from its heading on.
    pub text: String,
    pub state: Vec<Value>,
    pub records: Vec<Layout>,
    pub asked: Vec<Asked>,
    pub answers: Vec<Layout>,
    pub flags: Vec<Numbered>,
    pub refusals: Vec<Numbered>,
    /// The refusals in the order of their checks.
    pub order: Vec<u8>,
    pub fields: Vec<Field>,
}

/// A value of the state or a field of a configuration: number, place, name and unit.
pub struct Value {
    pub line: usize,
    pub number: usize,
    pub at: usize,
    pub name: String,
    pub unit: String,
}

/// A kind of record or of answer.
pub struct Layout {
    pub line: usize,
    pub number: u8,
    pub bytes: usize,
    pub places: Vec<Place>,
}

pub struct Place {
    pub at: usize,
    pub name: String,
}

/// What some kinds of call are told.
pub struct Asked {
    pub kinds: Vec<u8>,
    pub names: Vec<String>,
}

/// A flag by its bit, or a refusal by its number.
pub struct Numbered {
    pub line: usize,
    pub number: u8,
    pub text: String,
}

pub struct Field {
    pub value: Value,
    pub rule_text: String,
    pub rule: Rule,
    pub default: f32,
    pub bits: u32,
}

/// A row of a table, with its line in the file.
struct Row {
    line: usize,
    cells: Vec<String>,
}

impl Formats {
    pub fn read(readme: &str) -> Result<Formats, String> {
        let section = section(readme)?;
        let rows = |head| table(&section, head);
        let text: Vec<&str> = section.iter().map(|(_, text)| *text).collect();
        let text = text.join("\n");
        Ok(Formats {
            state: rows(STATE)?.iter().map(value).collect::<Result<_, _>>()?,
            records: layouts(&rows(RECORDS)?)?,
            asked: rows(ASKED)?.iter().map(asked).collect::<Result<_, _>>()?,
            answers: layouts(&rows(ANSWERS)?)?,
            flags: rows(FLAGS)?.iter().map(numbered).collect::<Result<_, _>>()?,
            refusals: rows(REFUSALS)?.iter().map(numbered).collect::<Result<_, _>>()?,
            order: list(between(&text, "the first in the order ", " is given")?)?,
            fields: rows(FIELDS)?.iter().map(field).collect::<Result<_, _>>()?,
            text,
        })
    }

    pub fn record(&self, kind: u8) -> Result<&Layout, String> {
        self.records.iter().find(|record| record.number == kind).ok_or(format!("there is no record of kind {kind}"))
    }

    pub fn answer(&self, number: u8) -> Result<&Layout, String> {
        self.answers.iter().find(|answer| answer.number == number).ok_or(format!("there is no answer {number}"))
    }
}

impl Layout {
    pub fn place(&self, name: &str) -> Option<usize> {
        self.places.iter().find(|place| place.name == name).map(|place| place.at)
    }
}

/// The lines of the section, counted in the whole file.
pub fn section(readme: &str) -> Result<Vec<(usize, &str)>, String> {
    let mut lines = (1..).zip(readme.lines()).skip_while(|(_, text)| *text != SECTION);
    let heading = lines.next().ok_or(format!("there is no '{SECTION}'"))?;
    let rest = lines.take_while(|(_, text)| !text.starts_with("## "));
    Ok([heading].into_iter().chain(rest).collect())
}

/// The rows of the table with this head. A row whose first cell is empty goes on with the row before.
fn table(section: &[(usize, &str)], head: &str) -> Result<Vec<Row>, String> {
    let after = section.iter().position(|(_, text)| *text == head).ok_or(format!("there is no table '{head}'"))?;
    let columns = cells(head).len();
    let mut rows: Vec<Row> = Vec::new();
    for (line, text) in section[after + 2..].iter().take_while(|(_, text)| text.starts_with('|')) {
        let cells = cells(text);
        if cells.len() != columns {
            return Err(format!("line {line}: {} cells, and not {columns}", cells.len()));
        }
        match rows.last_mut() {
            Some(row) if cells[0].is_empty() => row.go_on(&cells),
            _ => rows.push(Row { line: *line, cells }),
        }
    }
    Ok(rows)
}

pub fn cells(row: &str) -> Vec<String> {
    let inner = row.trim().trim_start_matches('|').trim_end_matches('|');
    inner.split('|').map(|cell| cell.trim().to_string()).collect()
}

impl Row {
    fn go_on(&mut self, cells: &[String]) {
        for (cell, more) in self.cells.iter_mut().zip(cells) {
            *cell = format!("{cell} {more}").trim().to_string();
        }
    }

    fn number<N: std::str::FromStr>(&self, column: usize) -> Result<N, String> {
        let cell = &self.cells[column];
        cell.parse().map_err(|_| format!("line {}: '{cell}' is not a number that fits", self.line))
    }
}

fn value(row: &Row) -> Result<Value, String> {
    let name = row.cells[2].trim_matches('`').to_string();
    Ok(Value { line: row.line, number: row.number(0)?, at: row.number(1)?, name, unit: row.cells[3].clone() })
}

fn field(row: &Row) -> Result<Field, String> {
    let rule_text = row.cells[4].clone();
    let rule = Rule::parse(&rule_text).map_err(|error| format!("line {}: {error}", row.line))?;
    let decimal = row.cells[5].split(' ').next().unwrap_or_default();
    let default = decimal.parse().map_err(|_| format!("line {}: '{decimal}' is no float", row.line))?;
    let bits = u32::from_str_radix(&row.cells[6], 16).map_err(|error| format!("line {}: bits: {error}", row.line))?;
    Ok(Field { value: value(row)?, rule_text, rule, default, bits })
}

fn layouts(rows: &[Row]) -> Result<Vec<Layout>, String> {
    rows.iter().map(layout).collect()
}

fn layout(row: &Row) -> Result<Layout, String> {
    let places = row.cells[3].split(',').map(str::trim).filter(|part| !part.is_empty());
    let places = places.map(|part| place(part).ok_or(format!("line {}: '{part}' is no place and name", row.line)));
    let places = places.collect::<Result<_, _>>()?;
    Ok(Layout { line: row.line, number: row.number(0)?, bytes: row.number(2)?, places })
}

fn place(text: &str) -> Option<Place> {
    let (at, name) = text.split_once(' ')?;
    Some(Place { at: at.parse().ok()?, name: name.to_string() })
}

fn asked(row: &Row) -> Result<Asked, String> {
    let names = row.cells[1].split(", ").map(str::to_string).collect();
    Ok(Asked { kinds: list(&row.cells[0])?, names })
}

fn numbered(row: &Row) -> Result<Numbered, String> {
    Ok(Numbered { line: row.line, number: row.number(0)?, text: row.cells[1].clone() })
}

/// Numbers with commas between them.
fn list(text: &str) -> Result<Vec<u8>, String> {
    let numbers = text.split(',').map(|part| part.trim().parse().map_err(|_| format!("'{part}' is no number")));
    numbers.collect()
}

/// What stands between two texts.
pub fn between<'a>(text: &'a str, before: &str, after: &str) -> Result<&'a str, String> {
    let found = text.split_once(before).and_then(|(_, rest)| rest.split_once(after));
    found.map(|(inner, _)| inner).ok_or(format!("nothing between '{before}' and '{after}'"))
}
