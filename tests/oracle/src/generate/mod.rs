//! Makes inputs: flights, and words for single functions. The same seed, count and kind give
//! the same bytes on every machine; nothing here calls the system's mathematics.

mod disturb;
pub mod flights;
mod grid;
pub mod inputs;
mod pilot;
mod random;
mod simulator;
mod values;
