//! Words for single functions.

use super::random::Random;
use super::values::{self, SOURCES, Source};
use crate::functions::{Function, Role};

/// The longest time that the divider hands on, in seconds.
const MAX_TIME_S: f32 = 16_777_216.0;

/// What the words of a call are drawn from.
#[derive(Clone, Copy, PartialEq)]
pub enum Kind {
    Tame,
    /// A third of the words special, the others tame or like another word of the call.
    Special,
    Any,
    Wide,
    /// Each word from anything.
    Mixed,
    /// Words counted up from the seed: for the functions of one word.
    Counting,
}

pub const KINDS: [(&str, Kind); 6] = [
    ("tame", Kind::Tame),
    ("special", Kind::Special),
    ("any", Kind::Any),
    ("wide", Kind::Wide),
    ("mixed", Kind::Mixed),
    ("counting", Kind::Counting),
];

/// Makes the words of one call after the other.
pub struct Inputs {
    function: &'static Function,
    kind: Kind,
    random: Random,
    count: u32,
    /// The words of the last call.
    words: Vec<u32>,
}

impl Inputs {
    pub fn new(function: &'static Function, seed: u64, kind: Kind) -> Self {
        let random = Random::new(seed);
        Inputs { function, kind, random, count: seed as u32, words: Vec::new() }
    }

    /// The words of the next call.
    pub fn next_call(&mut self) -> &[u32] {
        if self.kind == Kind::Counting {
            self.words = vec![self.count];
            self.count = self.count.wrapping_add(1);
            return &self.words;
        }
        let last = std::mem::take(&mut self.words);
        for role in self.function.roles {
            let at = self.words.len();
            let words = if !last.is_empty() && self.keeps(role) {
                last[at..at + role.words()].to_vec()
            } else {
                self.draw(role)
            };
            self.words.extend(words);
        }
        &self.words
    }

    /// Whether a role has the words of the last call again. A function with memory starts with
    /// a choice, and its memory would come to nothing if all of its inputs kept changing.
    fn keeps(&mut self, role: &Role) -> bool {
        let has_memory = matches!(self.function.roles[0], Role::Choice(_));
        match role {
            Role::Choice(_) => false,
            Role::Fields(..) => has_memory && self.random.chance(49, 50),
            _ => has_memory && self.random.chance(1, 2),
        }
    }

    fn source(&mut self) -> Source {
        match self.kind {
            Kind::Tame | Kind::Counting => Source::Tame,
            Kind::Special if self.random.chance(1, 3) => Source::Special,
            Kind::Special => Source::Tame,
            Kind::Any => Source::Any,
            Kind::Wide => Source::Wide,
            Kind::Mixed => self.random.pick(&SOURCES),
        }
    }

    fn draw(&mut self, role: &Role) -> Vec<u32> {
        let source = self.source();
        let random = &mut self.random;
        let floats = match *role {
            Role::Float(size) => {
                let drawn = values::float(random, source, size);
                vec![self.perhaps_related(drawn)]
            }
            Role::Heading => vec![values::heading(random, source)],
            Role::Bounds(size) => values::bounds(random, source, size).to_vec(),
            Role::Step => vec![values::step(random, source)],
            Role::Time => vec![values::time(random, source, MAX_TIME_S)],
            Role::Attitude => values::attitude(random, source).to_vec(),
            Role::State => self.state().to_vec(),
            Role::Fields(first, last) => (first..=last).map(|number| self.field(number)).collect(),
            Role::Wide => return self.wide_float(source).to_vec(),
            Role::Choice(weights) => return vec![random.weighted(weights) as u32],
            Role::Wind => return values::wind(random, source).to_vec(),
        };
        floats.into_iter().map(f32::to_bits).collect()
    }

    /// Now and then, where words may be special, another word of the call or a neighbour of it.
    fn perhaps_related(&mut self, drawn: f32) -> f32 {
        let relates = matches!(self.kind, Kind::Special | Kind::Mixed);
        if !relates || self.words.is_empty() || !self.random.chance(1, 8) {
            return drawn;
        }
        let other = f32::from_bits(self.random.pick(&self.words));
        match self.random.below(3) {
            0 => other,
            1 => -other,
            _ => values::neighbour(&mut self.random, other),
        }
    }

    fn field(&mut self, number: usize) -> f32 {
        let source = self.source();
        values::field(&mut self.random, source, number)
    }

    /// A state, each of its words from its own source where sources are mixed.
    fn state(&mut self) -> [f32; 15] {
        let mut state = values::state(&mut self.random, Source::Tame);
        for (index, word) in state.iter_mut().enumerate() {
            let source = self.source();
            if source != Source::Tame {
                *word = values::state(&mut self.random, source)[index];
            }
        }
        state
    }

    /// A wide float: of any bits, a float, half way between two floats, or next to that.
    fn wide_float(&mut self, source: Source) -> [u32; 2] {
        let float = f64::from(values::float(&mut self.random, source, 8.0)).to_bits();
        let half_way = match self.random.below(2) {
            0 => float ^ 0x1000_0000,
            _ => subnormal_half_way(self.random.bits()).to_bits(),
        };
        let bits = match self.random.below(4) {
            0 => self.random.next(),
            1 => float,
            2 => half_way,
            _ => half_way.wrapping_add(self.random.pick(&[1, u64::MAX])),
        };
        [bits as u32, (bits >> 32) as u32]
    }
}

/// Half way between two subnormal floats.
fn subnormal_half_way(bits: u32) -> f64 {
    const SMALLEST: f64 = f32::from_bits(1) as f64;
    (f64::from(bits >> 9) + 0.5) * SMALLEST
}
