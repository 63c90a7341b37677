//! Stub. The parent of the wind estimator.

pub mod wind;
