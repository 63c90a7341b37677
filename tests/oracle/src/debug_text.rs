//! Reads values back out of derived Debug text.
//!
//! Some of the Rust's memory is private to files that have no child module, so nothing outside
//! of them may read its fields. Their derived Debug text is open to all: it names every field
//! and writes every float so that reading it gives the same float back (a NaN's bits aside,
//! which are open anyway). A name that is not where it was expected ends the program.

use std::fmt::Debug;

use stable_flight::Vec2;
use stable_flight::estimation::wind::WindEstimate;
use stable_flight::nalgebra::Matrix2;

/// The text that is still to be read.
pub struct DebugText {
    text: String,
    at: usize,
}

impl DebugText {
    pub fn of(value: &dyn Debug) -> Self {
        DebugText { text: format!("{value:?}"), at: 0 }
    }

    fn rest(&self) -> &str {
        &self.text[self.at..]
    }

    /// Passes over text that has to be next.
    pub fn pass(&mut self, expected: &str) {
        assert!(
            self.rest().starts_with(expected),
            "expected '{expected}' at '{}' of '{}'",
            self.rest(),
            self.text
        );
        self.at += expected.len();
    }

    /// Text up to what ends a value.
    fn value(&mut self) -> &str {
        let from = self.at;
        let end = |c: char| ",])} ".contains(c);
        self.at += self.rest().find(end).unwrap_or(self.rest().len());
        &self.text[from..self.at]
    }

    pub fn float(&mut self) -> f32 {
        self.value().parse().expect("a float")
    }

    pub fn whole(&mut self) -> u32 {
        self.value().parse().expect("a whole number")
    }

    pub fn flag(&mut self) -> bool {
        self.value().parse().expect("true or false")
    }

    /// An option, its value read by `read`.
    pub fn option<T>(&mut self, read: impl FnOnce(&mut Self) -> T) -> Option<T> {
        if self.rest().starts_with("None") {
            self.pass("None");
            return None;
        }
        self.pass("Some(");
        let value = read(self);
        self.pass(")");
        Some(value)
    }

    fn pair(&mut self) -> Vec2 {
        self.pass("[");
        let x = self.float();
        self.pass(", ");
        let y = self.float();
        self.pass("]");
        Vec2::new(x, y)
    }

    pub fn vec2(&mut self) -> Vec2 {
        self.pass("[");
        let v = self.pair();
        self.pass("]");
        v
    }

    /// A matrix shows its columns.
    fn matrix2(&mut self) -> Matrix2<f32> {
        self.pass("[");
        let first = self.pair();
        self.pass(", ");
        let columns = [first, self.pair()];
        self.pass("]");
        Matrix2::from_fn(|row, column| columns[column][row])
    }

    pub fn wind_estimate(&mut self) -> WindEstimate {
        self.pass("WindEstimate { velocity_mps: ");
        let velocity_mps = self.vec2();
        self.pass(", covariance_m2ps2: ");
        let covariance_m2ps2 = self.matrix2();
        self.pass(" }");
        WindEstimate { velocity_mps, covariance_m2ps2 }
    }
}
