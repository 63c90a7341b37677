//! What one token is changed to, and which kind of change that is.

use crate::tokens::{Kind, Token};

/// Kinds of changes, in the order in which they are reported.
pub const KINDS: [&str; 5] = ["operator", "comparison", "logic", "constant", "swap"];

/// A change of one token: its kind and the text that takes its place.
pub type Change = (&'static str, String);

/// Names that stand for each other, in either direction.
const SWAPS: [(&str, &str); 31] = [
    ("min", "max"),
    ("sinf", "cosf"),
    ("sin", "cos"),
    ("ahead", "right"),
    ("axis_x", "axis_y"),
    ("roll", "pitch"),
    ("roll_rad", "pitch_rad"),
    ("roll_radps", "pitch_radps"),
    ("abs", "signum"),
    ("PI", "TAU"),
    ("INFINITY", "NEG_INFINITY"),
    ("linear_m", "distance_m"),
    ("position_m", "velocity_mps"),
    ("altitude_m", "velocity_mps"),
    ("specific_force_mps2", "ground_along_mps"),
    ("to_rad", "from_rad"),
    ("start_m", "step_m"),
    ("MIN_TILT_COSINE", "INVERTED_FADE_COSINE"),
    // Fields of a configuration.
    ("max_integral", "integration_band_m"),
    ("position_p", "braking_share"),
    ("max_accel_mps2", "brake_mps2"),
    ("max_descent_mps", "land_speed_mps"),
    ("descent_accel_mps2", "climb_decel_mps2"),
    ("heading_rate_radps", "waypoint_yaw_radps"),
    ("heading_yield_rad", "heading_yield_rate_radps"),
    ("wind_heading_max_sd_rad", "wind_heading_deadband_rad"),
    ("airborne_height_m", "altitude_leash_m"),
    ("min_thrust", "max_boost_thrust"),
    ("sink_limit_mps", "sink_gain"),
    ("ballistic_kgpm2", "momentum_per_s"),
    ("initial_sd_mps", "gate_sigma"),
];

/// Parts of a vector, an attitude or gains, and the part that is read in their place.
const PARTS: [(&str, &str); 7] = [("x", "y"), ("y", "x"), ("z", "x"), ("w", "i"), ("j", "i"), ("p", "i"), ("d", "p")];

/// Questions with a yes or no, and their opposites or neighbours, in either direction.
const QUESTIONS: [(&str, &str); 4] =
    [("is_nan", "is_finite"), ("is_some", "is_none"), ("all", "any"), ("is_some_and", "is_none_or")];

/// All changes of the token at `at`.
pub fn changes(tokens: &[Token], at: usize) -> Vec<Change> {
    let token = &tokens[at];
    match token.kind {
        Kind::Mark if token.space_before && token.space_after => binary(token.text),
        Kind::Mark => unary(tokens, at),
        Kind::Number => number(token.text),
        Kind::Name => name(tokens, at),
        Kind::Quoted => Vec::new(),
    }
}

fn to(kind: &'static str, texts: &[&str]) -> Vec<Change> {
    texts.iter().map(|text| (kind, text.to_string())).collect()
}

/// An operator between two operands: the sources are formatted, so white space stands on both sides, and nowhere else.
fn binary(text: &str) -> Vec<Change> {
    match text {
        "+" => to("operator", &["-"]),
        "-" => to("operator", &["+"]),
        "*" => to("operator", &["/"]),
        "/" => to("operator", &["*"]),
        "%" => to("operator", &["/"]),
        "+=" => to("operator", &["-="]),
        "-=" => to("operator", &["+="]),
        "<" => to("comparison", &["<=", ">"]),
        "<=" => to("comparison", &["<", ">="]),
        ">" => to("comparison", &[">=", "<"]),
        ">=" => to("comparison", &[">", "<="]),
        "==" => to("comparison", &["!="]),
        "!=" => to("comparison", &["=="]),
        "&&" => to("logic", &["||"]),
        "||" => to("logic", &["&&"]),
        "|=" => to("logic", &["&="]),
        _ => Vec::new(),
    }
}

/// A sign or a negation is dropped; the end of a range is taken in or left out.
fn unary(tokens: &[Token], at: usize) -> Vec<Change> {
    let token = &tokens[at];
    let after_space = token.space_before || tokens[at - 1].is("(") || tokens[at - 1].is("[");
    match token.text {
        "-" if !token.space_after => to("operator", &[""]),
        "!" if !token.space_after && after_space => to("logic", &[""]),
        ".." if !token.space_before && !tokens[at - 1].is("(") => to("comparison", &["..="]),
        "..=" => to("comparison", &[".."]),
        _ => Vec::new(),
    }
}

fn name(tokens: &[Token], at: usize) -> Vec<Change> {
    let text = tokens[at].text;
    match text {
        "true" => return to("constant", &["false"]),
        "false" => return to("constant", &["true"]),
        "NAN" => return to("constant", &["INFINITY"]),
        _ => {}
    }
    let is_part = at > 0 && tokens[at - 1].is(".") && !tokens.get(at + 1).is_some_and(|next| next.is("("));
    if is_part && let Some(part) = part(tokens[at - 2].text, text) {
        return to("swap", &[part]);
    }
    if let Some(other) = other(&QUESTIONS, text) {
        return to("logic", &[other]);
    }
    to("swap", &SWAPS.iter().filter_map(|pair| other(&[*pair], text)).collect::<Vec<_>>())
}

/// The part read in the place of `text`. An attitude's i is a part of a vector, other i are gains.
fn part(owner: &str, text: &str) -> Option<&'static str> {
    if text == "i" {
        return Some(if owner == "attitude" { "j" } else { "d" });
    }
    PARTS.iter().find(|(part, _)| *part == text).map(|(_, other)| *other)
}

fn other(pairs: &[(&'static str, &'static str)], text: &str) -> Option<&'static str> {
    pairs.iter().find_map(|(a, b)| match text {
        _ if text == *a => Some(*b),
        _ if text == *b => Some(*a),
        _ => None,
    })
}

/// Zero becomes one; another float its double and its upper neighbour, another whole number the one above and below.
fn number(text: &str) -> Vec<Change> {
    let (digits, suffix) = text.split_once("_f").map_or((text, ""), |(digits, _)| (digits, "_f32"));
    let digits = digits.replace('_', "");
    if !digits.contains(['.', 'e']) {
        let value: u32 = digits.parse().expect("a whole number");
        let others = value.checked_sub(1).into_iter().chain([value + 1]);
        return others.map(|other| ("constant", other.to_string())).collect();
    }
    let value: f32 = digits.parse().expect("a float");
    let others = if value == 0.0 { vec![1.0] } else { vec![2.0 * value, value.next_up()] };
    others.into_iter().map(|other: f32| ("constant", format!("{other:?}{suffix}"))).collect()
}
