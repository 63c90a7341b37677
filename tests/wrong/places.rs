//! The code of a source file: the bodies of its functions and the values of its constants, each with its name. What is
//! left is no code to be changed: types, generics, attributes, imports, tests.

use std::ops::Range;

use crate::tokens::Token;

/// A function's body or a constant's value.
pub struct Place {
    /// `function`, `Type::function` or `CONSTANT`.
    pub name: String,
    /// Its tokens, by their index.
    pub tokens: Range<usize>,
}

/// All code of a file.
pub fn places(tokens: &[Token]) -> Vec<Place> {
    let mut found = Vec::new();
    items(tokens, 0..tokens.len(), "", &mut found);
    found
}

/// Walks over the items of a file or of an `impl`, whose type stands before each name.
fn items(tokens: &[Token], range: Range<usize>, owner: &str, found: &mut Vec<Place>) {
    let mut at = range.start;
    while at < range.end {
        let text = tokens[at].text;
        let next = tokens.get(at + 1).map_or("", |token| token.text);
        at = match text {
            "#" => attribute(tokens, at),
            "const" if next != "fn" => {
                let value = find(tokens, at, &["="]) + 1;
                let end = find(tokens, value, &[";"]);
                found.push(Place { name: format!("{owner}{next}"), tokens: value..end });
                end + 1
            }
            "fn" => {
                let begin = find(tokens, at, &["{", ";"]);
                let end = item_end(tokens, begin);
                found.push(Place { name: format!("{owner}{next}"), tokens: begin..end });
                end
            }
            "impl" => {
                let begin = find(tokens, at, &["{"]);
                let end = closing(tokens, begin);
                items(tokens, begin + 1..end, &format!("{}::", owner_of(&tokens[at + 1..begin])), found);
                end + 1
            }
            "use" => find(tokens, at, &[";"]) + 1,
            "struct" | "enum" | "trait" | "mod" | "type" => item_end(tokens, find(tokens, at, &["{", ";"])),
            _ => at + 1,
        };
    }
}

/// The index after an attribute, and after the item that it belongs to where it keeps that for tests.
fn attribute(tokens: &[Token], at: usize) -> usize {
    let begin = find(tokens, at, &["["]);
    let end = closing(tokens, begin);
    let texts: Vec<&str> = tokens[begin..=end].iter().map(|token| token.text).collect();
    if texts.concat() == "[cfg(test)]" { item_end(tokens, find(tokens, end + 1, &["{", ";"])) } else { end + 1 }
}

/// The type that an `impl` is for: the last name of its path, after `for` where there is one.
fn owner_of<'a>(head: &[Token<'a>]) -> &'a str {
    let head = head.split(|token| token.is("where")).next().unwrap_or(head);
    let after_for = head.iter().position(|token| token.is("for")).map_or(0, |at| at + 1);
    let mut depth = 0;
    let mut owner = "";
    for token in &head[after_for..] {
        match token.text {
            "<" => depth += 1,
            ">" => depth -= 1,
            text if depth == 0 && text != "::" && text != "&" => owner = text,
            _ => {}
        }
    }
    owner
}

/// The index of the first of `texts` from `at` on that stands in no bracket opened since.
fn find(tokens: &[Token], at: usize, texts: &[&str]) -> usize {
    let mut depth = 0;
    for (index, token) in tokens.iter().enumerate().skip(at) {
        if depth == 0 && texts.iter().any(|text| token.is(text)) {
            return index;
        }
        depth += depth_change(token);
    }
    tokens.len() - 1
}

/// The index after an item whose body or end is at `begin`.
fn item_end(tokens: &[Token], begin: usize) -> usize {
    if tokens[begin].is("{") { closing(tokens, begin) + 1 } else { begin + 1 }
}

/// The index of the bracket that closes the one at `begin`.
fn closing(tokens: &[Token], begin: usize) -> usize {
    let mut depth = 0;
    for (index, token) in tokens.iter().enumerate().skip(begin) {
        depth += depth_change(token);
        if depth == 0 {
            return index;
        }
    }
    tokens.len() - 1
}

fn depth_change(token: &Token) -> i32 {
    match token.text {
        "(" | "[" | "{" => 1,
        ")" | "]" | "}" => -1,
        _ => 0,
    }
}
