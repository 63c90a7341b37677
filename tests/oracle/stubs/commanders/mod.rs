//! Stub. The parent of the two commander files that guidance takes constants from.

pub mod touchdown;
pub mod waypoint;

pub use touchdown::{TouchdownConfig, TouchdownDetector};
