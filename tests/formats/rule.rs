//! A rule of a field as README writes it: "anything", "in (0, π/2)", "finite, ≥ 0".

use std::f32::consts::{FRAC_PI_2, PI};

/// The floats that stand in rules by a name or a decimal that is not exact.
pub const NAMED: [(&str, f32); 3] = [("0.2", 0.2), ("π/2", FRAC_PI_2), ("π", PI)];

/// What a field takes. A rule with no part takes anything, a NaN too.
#[derive(Clone, Default)]
pub struct Rule {
    finite: bool,
    low: Option<Bound>,
    high: Option<Bound>,
}

#[derive(Clone, Copy)]
struct Bound {
    at: f32,
    /// The bound itself is taken.
    closed: bool,
}

impl Rule {
    pub fn parse(text: &str) -> Result<Rule, String> {
        let bad = || format!("'{text}' is no rule that can be read");
        if text == "anything" {
            return Ok(Rule::default());
        }
        if let Some(range) = text.strip_prefix("in ") {
            return in_range(range).ok_or_else(bad);
        }
        let least = text.strip_prefix("finite, ").ok_or_else(bad)?;
        let (closed, at) = match least.strip_prefix("≥ ") {
            Some(at) => (true, at),
            None => (false, least.strip_prefix("> ").ok_or_else(bad)?),
        };
        let low = Bound { at: number(at).ok_or_else(bad)?, closed };
        Ok(Rule { finite: true, low: Some(low), high: None })
    }

    /// Comparisons are IEEE 754's, so a NaN is in no range and -0 is 0.
    pub fn takes(&self, value: f32) -> bool {
        let above = |low: Bound| value > low.at || low.closed && value == low.at;
        let below = |high: Bound| value < high.at || high.closed && value == high.at;
        (!self.finite || value.is_finite()) && self.low.is_none_or(above) && self.high.is_none_or(below)
    }
}

/// A range with its brackets: round ones leave the bound out.
fn in_range(text: &str) -> Option<Rule> {
    let (open, rest) = (text.starts_with('('), text.strip_prefix(['(', '['])?);
    let (end_open, inner) = (rest.ends_with(')'), rest.strip_suffix([')', ']'])?);
    let (low, high) = inner.split_once(", ")?;
    let low = Bound { at: number(low)?, closed: !open };
    let high = Bound { at: number(high)?, closed: !end_open };
    Some(Rule { finite: false, low: Some(low), high: Some(high) })
}

fn number(text: &str) -> Option<f32> {
    let named = NAMED.iter().find(|(name, _)| *name == text);
    named.map(|(_, value)| *value).or_else(|| text.parse().ok())
}
