//! The functions that `oracle fn NAME` calls, each with a fixed number of words in and out.
//! The table in README.md says what each word is.

mod controllers;
mod heading;
mod leaves;
mod math;
mod wind;

use std::ops::RangeInclusive;

use stable_flight::guidance::copter::CopterGuidanceConfig;

use crate::config;
use crate::words::{Reader, Writer};

/// A function ready to be called. One with memory keeps it from call to call.
pub type Call = Box<dyn FnMut(&mut Reader, &mut Writer)>;

/// An entry of the table of functions.
pub struct Function {
    pub name: &'static str,
    /// What the words going in are for, so that inputs can be made for them.
    pub roles: &'static [Role],
    /// The number of words coming out.
    pub outputs: usize,
    /// Gives the function with fresh memory.
    pub start: fn() -> Call,
}

impl Function {
    /// The number of words going in.
    pub fn inputs(&self) -> usize {
        self.roles.iter().map(Role::words).sum()
    }
}

/// What one or more words going in are for.
#[derive(Clone, Copy)]
pub enum Role {
    /// A float that may be anything. Tame ones are at most this large.
    Float(f32),
    /// A heading, as a state may have it: not finite, or at most 1,024 in size.
    Heading,
    /// Two floats of which the first is at most the second.
    Bounds(f32),
    /// The two halves of a wide float, the low one first.
    Wide,
    /// A whole number below the length of the list, drawn with these weights.
    Choice(&'static [u32]),
    /// Fields of a configuration, from the first number to the last, always legal.
    Fields(usize, usize),
    /// A time step that a call may have.
    Step,
    /// A positive and finite time, as the divider may hand on.
    Time,
    /// A quaternion: w, i, j, k.
    Attitude,
    /// The 15 words of a state.
    State,
    /// A flag, then a wind estimate: velocity x y, covariance 00 01 10 11.
    Wind,
}

impl Role {
    pub fn words(&self) -> usize {
        match self {
            Role::Float(_) | Role::Heading | Role::Choice(_) | Role::Step | Role::Time => 1,
            Role::Bounds(_) | Role::Wide => 2,
            Role::Fields(first, last) => last + 1 - first,
            Role::Attitude => 4,
            Role::State => 15,
            Role::Wind => 7,
        }
    }
}

/// Every function.
pub fn all() -> impl Iterator<Item = &'static Function> {
    [leaves::TABLE, math::TABLE, controllers::TABLE, wind::TABLE, heading::TABLE]
        .into_iter()
        .flatten()
}

pub fn find(name: &str) -> Option<&'static Function> {
    all().find(|function| function.name == name)
}

/// The Rust's default configuration with some of its fields read from the input.
fn read_config(input: &mut Reader, numbers: RangeInclusive<usize>) -> CopterGuidanceConfig {
    let mut fields = config::default_fields();
    numbers.for_each(|number| fields[number - 1] = input.float());
    config::from_fields(&fields)
}
