//! The tokens of a Rust source file. Comments and white space are between them.

/// Operators and marks of more than one character, longest first.
const LONG_MARKS: [&str; 24] = [
    "<<=", ">>=", "..=", "::", "->", "=>", "==", "!=", "<=", ">=", "&&", "||", "+=", "-=", "*=", "/=", "%=", "|=",
    "&=", "^=", "..", "<<", ">>", "##",
];

#[derive(Clone, Copy, Debug, PartialEq)]
pub enum Kind {
    /// A name or a keyword.
    Name,
    Number,
    /// A string, a character or a lifetime.
    Quoted,
    Mark,
}

/// A token and where it stands in its file, in bytes.
#[derive(Clone, Copy, Debug)]
pub struct Token<'a> {
    pub kind: Kind,
    pub text: &'a str,
    pub start: usize,
    /// Whether white space or a comment stands before it, and after it.
    pub space_before: bool,
    pub space_after: bool,
}

impl Token<'_> {
    pub fn end(&self) -> usize {
        self.start + self.text.len()
    }

    pub fn is(&self, text: &str) -> bool {
        self.kind != Kind::Quoted && self.text == text
    }
}

/// All tokens of `source`, in order.
pub fn tokens(source: &str) -> Vec<Token<'_>> {
    let mut found: Vec<Token> = Vec::new();
    let mut at = 0;
    loop {
        let start = at + space(&source[at..]);
        if let Some(last) = found.last_mut() {
            last.space_after = start > at;
        }
        let rest = &source[start..];
        if rest.is_empty() {
            return found;
        }
        let (kind, length) = first(rest);
        let text = &rest[..length];
        found.push(Token { kind, text, start, space_before: start > at || start == 0, space_after: false });
        at = start + length;
    }
}

/// The length of the white space and the comments that `text` begins with.
fn space(text: &str) -> usize {
    let mut at = 0;
    loop {
        let rest = &text[at..];
        let blank = rest.len() - rest.trim_start().len();
        at += match () {
            _ if blank > 0 => blank,
            _ if rest.starts_with("//") => rest.find('\n').unwrap_or(rest.len()),
            _ if rest.starts_with("/*") => rest.find("*/").map_or(rest.len(), |end| end + 2),
            _ => return at,
        };
    }
}

/// The kind and the length of the token that `text` begins with.
fn first(text: &str) -> (Kind, usize) {
    let character = text.chars().next().expect("there is text");
    if character.is_alphabetic() || character == '_' {
        return (Kind::Name, text.find(|c: char| !c.is_alphanumeric() && c != '_').unwrap_or(text.len()));
    }
    match character {
        '0'..='9' => (Kind::Number, number(text)),
        '"' => (Kind::Quoted, string(text)),
        '\'' => (Kind::Quoted, character_or_lifetime(text)),
        _ => (
            Kind::Mark,
            LONG_MARKS.iter().find(|mark| text.starts_with(**mark)).map_or(character.len_utf8(), |m| m.len()),
        ),
    }
}

/// The length of a number: a point counts where a digit follows, a sign where an exponent stands before it.
fn number(text: &str) -> usize {
    let bytes = text.as_bytes();
    let digit = |at: usize| bytes.get(at).is_some_and(u8::is_ascii_digit);
    let mut at = 1;
    while let Some(byte) = bytes.get(at) {
        let goes_on = match byte {
            b'.' => digit(at + 1),
            b'+' | b'-' => bytes[at - 1] == b'e' && digit(at + 1),
            _ => byte.is_ascii_alphanumeric() || *byte == b'_',
        };
        if !goes_on {
            break;
        }
        at += 1;
    }
    at
}

fn string(text: &str) -> usize {
    let bytes = text.as_bytes();
    let mut at = 1;
    while bytes[at] != b'"' {
        at += if bytes[at] == b'\\' { 2 } else { 1 };
    }
    at + 1
}

/// A character is closed by a quote, a lifetime is a name.
fn character_or_lifetime(text: &str) -> usize {
    if text[1..].starts_with('\\') {
        return 2 + text[2..].find('\'').expect("a character ends") + 1;
    }
    let after: usize = text.chars().take(2).map(char::len_utf8).sum();
    if text[after..].starts_with('\'') {
        return after + 1;
    }
    1 + text[1..].find(|c: char| !c.is_alphanumeric() && c != '_').unwrap_or(text.len() - 1)
}
