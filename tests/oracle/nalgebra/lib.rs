//! A stand-in for the part of nalgebra that the copter guidance of stable-flight calls.
//!
//! It is written from document 01 and not from nalgebra's text: every sum is taken from left to
//! right, and the rotation has the rows that document 01 writes down. Whether nalgebra itself
//! rounds in that order is not something this stand-in can show.
//!
//! Only `f32` is served. The type parameter is kept so that the Rust's own type names compile.

#![no_std]

mod matrix;
mod quaternion;

pub use matrix::{Matrix2, Matrix3, SMatrix, SVector, Vector2, Vector3, Vector4};
pub use quaternion::{Quaternion, Rotation3, UnitQuaternion};
