//! Wrong tables: README with one cell changed or one row left out, for each cell that the check reads. Each has to be
//! found.

use crate::shape::unit_of;
use crate::tables::{cells, section};
use crate::{Reference, check};

/// The rules that a field may have.
const RULES: [&str; 8] =
    ["anything", "finite, ≥ 0", "finite, > 0", "finite, > 0.2", "in (0, 1]", "in [0, 1)", "in (0, π/2)", "in [0, π]"];

/// Texts beside the tables, and what is put in their place. Three pairs of neighbours in the order are left as they are,
/// since no record of the program's breaks both: 9 and 5, 1 and 7, 4 and 8.
const TEXTS: [(&str, &str); 10] = [
    ("head -c 201 ", "head -c 205 "),
    ("seek=17 ", "seek=21 "),
    (r"\063\063\263\076", r"\063\063\262\076"),
    ("3E4CCCCD, 3FC90FDB", "3E4CCCCE, 3FC90FDB"),
    ("3FC90FDB, 40490FDB", "3FC90FDA, 40490FDB"),
    ("order 9, 5, 6, 1, 7, 4, 8, 2, 3", "order 9, 6, 5, 1, 7, 4, 8, 2, 3"),
    ("order 9, 5, 6, 1, 7, 4, 8, 2, 3", "order 9, 5, 1, 6, 7, 4, 8, 2, 3"),
    ("order 9, 5, 6, 1, 7, 4, 8, 2, 3", "order 9, 5, 6, 1, 4, 7, 8, 2, 3"),
    ("order 9, 5, 6, 1, 7, 4, 8, 2, 3", "order 9, 5, 6, 1, 7, 4, 2, 8, 3"),
    ("order 9, 5, 6, 1, 7, 4, 8, 2, 3", "order 9, 5, 6, 1, 7, 4, 8, 3, 2"),
];

/// A default that no field has, with its bits.
const OTHER_DEFAULT: (&str, &str) = ("0.875", "3F600000");

/// The column of a name, in the tables of the state and of the fields.
const NAME: usize = 2;

/// Stands for a row that is left out.
const LEFT_OUT: &str = "(left out)";

/// A wrong README, and what is wrong in it.
struct Wrong {
    what: String,
    readme: String,
}

/// Gives whether the tables are found right as they are, and wrong with each change.
pub fn run(readme: &str, reference: &Reference) -> Result<bool, String> {
    if !check(readme, reference, true).differences.is_empty() {
        return Err("the tables are wrong as they are".into());
    }
    let all = all(readme)?;
    let mut missed = 0;
    for wrong in &all {
        if check(&wrong.readme, reference, false).differences.is_empty() {
            missed += 1;
            println!("not found: {}", wrong.what);
        }
    }
    println!("wrong tables: {}, not found: {missed}", all.len());
    Ok(missed == 0)
}

fn all(readme: &str) -> Result<Vec<Wrong>, String> {
    let mut all = Vec::new();
    for (text, other) in TEXTS {
        if !readme.contains(text) {
            return Err(format!("README has no '{text}'"));
        }
        all.push(Wrong { what: format!("'{text}' as '{other}'"), readme: readme.replacen(text, other, 1) });
    }
    let mut head = Vec::new();
    let section = section(readme)?;
    for pair in section.windows(2) {
        let ((_, above), (line, row)) = (pair[0], pair[1]);
        if !above.starts_with('|') {
            head = cells(row);
        } else if row.starts_with("| ") {
            let below = section.iter().find(|(number, _)| *number == line + 1).map_or("", |(_, below)| below);
            all.extend(wrong_rows(&head, row, below).into_iter().map(|other| put(readme, line, &other)));
        }
    }
    Ok(all)
}

/// README with another row in the place of the one at a line.
fn put(readme: &str, line: usize, other: &str) -> Wrong {
    let lines = (1..).zip(readme.lines()).map(|(number, text)| if number == line { other } else { text });
    let lines: Vec<&str> = lines.filter(|text| *text != LEFT_OUT).collect();
    Wrong { what: format!("line {line} as '{other}'"), readme: lines.join("\n") }
}

/// A row with one cell changed, or a default changed both as a number and as bits, or left out.
fn wrong_rows(head: &[String], row: &str, below: &str) -> Vec<String> {
    let (own, below) = (cells(row), cells(below));
    let mut rows = vec![LEFT_OUT.to_string()];
    for (column, name) in head.iter().enumerate() {
        let next = below.get(column).filter(|next| !next.is_empty());
        for other in wrong_cells(name, &own, column, next) {
            let mut changed = own.clone();
            changed[column] = other;
            if name == "default" {
                rows.push(joined(&changed));
                changed[column + 1] = OTHER_DEFAULT.1.into();
            }
            rows.push(joined(&changed));
        }
    }
    rows
}

fn joined(cells: &[String]) -> String {
    format!("| {} |", cells.join(" | "))
}

/// What may stand wrongly in a cell of a column; nothing in one that is not checked.
fn wrong_cells(column: &str, row: &[String], at: usize, next: Option<&String>) -> Vec<String> {
    let cell = &row[at];
    match column {
        "n" | "place" | "bytes" | "kind" | "answer" | "bit" | "refusal" => numbers_raised(cell),
        "places" => [numbers_raised(cell), neighbours_swapped(cell)].concat(),
        "name" | "flag" | "why" => next.into_iter().cloned().collect(),
        "value" => vec![format!("{cell}s")],
        "rule" => RULES.iter().filter(|rule| **rule != cell).map(|rule| rule.to_string()).collect(),
        "default" => vec![OTHER_DEFAULT.0.into()],
        "bits" => vec![OTHER_DEFAULT.1.into()],
        "unit" if unit_of(row[NAME].trim_matches('`')).is_some() => vec![format!("{cell}²")],
        _ => Vec::new(),
    }
}

/// The cell once for each number in it, that one raised by 1.
fn numbers_raised(cell: &str) -> Vec<String> {
    let words: Vec<&str> = cell.split_inclusive([' ', ',']).collect();
    let raised = (0..words.len()).filter_map(|index| {
        let digits = words[index].trim_end_matches([' ', ',']);
        let number: u32 = digits.parse().ok().filter(|_| !digits.starts_with('0') || digits == "0")?;
        let (before, after) = (words[..index].concat(), words[index + 1..].concat());
        Some(format!("{before}{}{}{after}", number + 1, &words[index][digits.len()..]))
    });
    raised.collect()
}

/// The cell once for each two neighbouring places in it, their names swapped. A covariance is the same both ways, so no
/// answer can tell its 01 from its 10.
fn neighbours_swapped(cell: &str) -> Vec<String> {
    let places: Vec<(&str, &str)> = cell.split(", ").filter_map(|part| part.split_once(' ')).collect();
    let swapped = (1..places.len()).filter_map(|index| {
        let mut other = places.clone();
        (other[index - 1].1, other[index].1) = (places[index].1, places[index - 1].1);
        let told = other[index].1 != "covariance 01";
        told.then(|| other.iter().map(|(at, name)| format!("{at} {name}")).collect::<Vec<_>>().join(", "))
    });
    swapped.collect()
}
