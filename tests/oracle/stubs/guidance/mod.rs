//! Stub. The parent of copter guidance and its divider.

pub mod copter;
pub(crate) mod rate_divider;
