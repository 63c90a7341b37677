//! The parts of the oracle, shared by its two programs: `oracle`, which answers, and
//! `generate`, which makes inputs.

pub mod config;
pub mod craft;
mod debug_text;
pub mod encode;
pub mod facts;
pub mod functions;
pub mod generate;
pub mod memory;
pub mod records;
pub mod stream;
pub mod words;
