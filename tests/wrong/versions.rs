//! The wrong versions: each differs from the source in one token.

use std::collections::BTreeMap;
use std::fs;
use std::path::Path;

use crate::changes::changes;
use crate::lists::Name;
use crate::places::{Place, places};
use crate::tokens::{Token, tokens};

/// The files that guidance is made of, below the crate's `src`.
pub const FILES: [&str; 13] = [
    "math.rs",
    "commanders/touchdown.rs",
    "controllers/mod.rs",
    "controllers/derivative.rs",
    "controllers/altitude.rs",
    "controllers/lateral.rs",
    "estimation/wind.rs",
    "guidance/rate_divider.rs",
    "guidance/copter/hover_wind.rs",
    "guidance/copter/wind_heading.rs",
    "guidance/copter/leg_heading.rs",
    "guidance/copter.rs",
    "lib.rs",
];

/// What names a version, whatever else is changed in its file.
#[derive(Clone, Debug, Eq, Ord, PartialEq, PartialOrd)]
pub struct Key {
    pub file: String,
    /// The function or constant that the line stands in.
    pub place: String,
    /// The line's text without the white space around it.
    pub line: String,
    /// `OLD -> NEW`, with a number after it where that is possible more than once in such a line of the place.
    pub change: String,
}

pub struct Version {
    pub key: Key,
    pub kind: &'static str,
    /// The number of the line.
    pub line: usize,
    /// The whole text of the file.
    pub text: String,
}

/// All versions of the source below `src`, in the order of files and lines, without those of the names left out. Fails
/// where a name is left out that its file does not have.
pub fn versions(src: &Path, left_out: &[Name]) -> Result<Vec<Version>, String> {
    let mut found = Vec::new();
    for file in FILES {
        let source = fs::read_to_string(src.join(file)).map_err(|error| format!("{file}: {error}"))?;
        let tokens = tokens(&source);
        let places = places(&tokens);
        let names: Vec<&Name> = left_out.iter().filter(|name| name.file == file).collect();
        if let Some(name) = names.iter().find(|name| places.iter().all(|place| place.name != name.place)) {
            return Err(format!("{file} has no '{}', which is left out", name.place));
        }
        for place in places.iter().filter(|place| names.iter().all(|name| place.name != name.place)) {
            versions_of(file, &source, &tokens, place, &mut found);
        }
    }
    match left_out.iter().find(|name| !FILES.contains(&name.file.as_str())) {
        Some(name) => Err(format!("'{}' is none of the files, and a name of it is left out", name.file)),
        None => Ok(found),
    }
}

/// The files in which functions are left out, each of these made to panic where it is not said to be called. Flown,
/// they show that guidance calls none.
pub fn stopped(src: &Path, left_out: &[Name]) -> Result<Vec<(&'static str, String)>, String> {
    let mut files = Vec::new();
    for file in FILES {
        let source = fs::read_to_string(src.join(file)).map_err(|error| format!("{file}: {error}"))?;
        let tokens = tokens(&source);
        let is_stopped = |place: &Place| {
            let is_it = |name: &&Name| name.file == file && name.place == place.name && !name.called;
            tokens[place.tokens.start].is("{") && left_out.iter().any(|name| is_it(&name))
        };
        let mut text = source.clone();
        // From the last to the first, so that what is put in moves none that is still to come.
        for place in places(&tokens).iter().rev().filter(|place| is_stopped(place)) {
            text.insert_str(tokens[place.tokens.start].end(), " panic!();");
        }
        if text != source {
            files.push((file, text));
        }
    }
    Ok(files)
}

fn versions_of(file: &str, source: &str, tokens: &[Token], place: &Place, found: &mut Vec<Version>) {
    let mut counts: BTreeMap<(&str, String), usize> = BTreeMap::new();
    for at in place.tokens.clone() {
        let token = &tokens[at];
        let line = line_at(source, token.start);
        for (kind, new) in changes(tokens, at) {
            let text = format!("{}{new}{}", &source[..token.start], &source[token.end()..]);
            let mut change = format!("{} -> {}", token.text, if new.is_empty() { "(nothing)" } else { &new });
            let count = counts.entry((line, change.clone())).or_insert(0);
            *count += 1;
            if *count > 1 {
                change = format!("{change}, place {count}");
            }
            let key = Key { file: file.into(), place: place.name.clone(), line: line.into(), change };
            found.push(Version { key, kind, line: source[..token.start].lines().count().max(1), text });
        }
    }
}

/// The line that a byte stands in, without the white space around it.
fn line_at(source: &str, at: usize) -> &str {
    let start = source[..at].rfind('\n').map_or(0, |newline| newline + 1);
    source[start..].lines().next().unwrap_or("").trim()
}
