//! The two lists beside the script: names that are left out, and versions that no record can tell.

use std::fs;
use std::path::Path;

use crate::versions::{Key, Version};

/// A function or constant of a file.
pub struct Name {
    pub file: String,
    pub place: String,
    /// Whether it is called all the same, for what no answer shows.
    pub called: bool,
}

/// A version that no record can tell.
pub struct Entry {
    pub key: Key,
    /// The number of its line in the list.
    pub number: usize,
}

/// Reads names: a line each, file and name, and `called` where it is. Lines that begin with # say why.
pub fn names(path: &Path) -> Result<Vec<Name>, String> {
    let text = read(path)?;
    let lines = text.lines().map(str::trim).filter(|line| !line.is_empty() && !line.starts_with('#'));
    lines
        .map(|line| match line.split_whitespace().collect::<Vec<_>>()[..] {
            [file, place] => Ok(Name { file: file.into(), place: place.into(), called: false }),
            [file, place, "called"] => Ok(Name { file: file.into(), place: place.into(), called: true }),
            _ => Err(format!("{}: '{line}' is no file and name", path.display())),
        })
        .collect()
}

/// Reads versions. A line `in: FILE PLACE` and a line `line: TEXT` say where, each line `change: OLD -> NEW` after them
/// is a version, and `why: REASON`, which may go on in indented lines, ends the group. Fails where a line names none of
/// `versions` or one that another line names.
pub fn entries(path: &Path, versions: &[Version]) -> Result<Vec<Entry>, String> {
    let text = read(path)?;
    let (mut file, mut place, mut code) = ("", "", "");
    let mut found: Vec<Entry> = Vec::new();
    let mut without_reason = 0;
    for (index, line) in text.lines().enumerate() {
        let number = index + 1;
        let wrong = |what: &str| format!("{}, line {number}: '{line}' {what}", path.display());
        if line.is_empty() || line.starts_with(['#', ' ']) {
            continue;
        }
        let (head, rest) = line.split_once(": ").ok_or_else(|| wrong("has no place in the list"))?;
        match head {
            "in" => (file, place) = rest.split_once(' ').ok_or_else(|| wrong("is no file and name"))?,
            "line" => code = rest,
            "change" => {
                let key = Key { file: file.into(), place: place.into(), line: code.into(), change: rest.into() };
                if versions.iter().all(|version| version.key != key) {
                    return Err(wrong("is no version"));
                }
                if found.iter().any(|entry| entry.key == key) {
                    return Err(wrong("is on the list already"));
                }
                found.push(Entry { key, number });
                without_reason += 1;
            }
            "why" if without_reason > 0 => without_reason = 0,
            _ => return Err(wrong("has no place in the list")),
        }
    }
    if without_reason > 0 {
        return Err(format!("{}: the last change has no reason", path.display()));
    }
    Ok(found)
}

fn read(path: &Path) -> Result<String, String> {
    fs::read_to_string(path).map_err(|error| format!("{}: {error}", path.display()))
}
