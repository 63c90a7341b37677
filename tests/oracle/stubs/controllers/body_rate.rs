//! Stub. The names are re-exported; guidance does not use them.

pub struct BodyRateController;
pub struct BodyRateControllerConfig;
pub const RATE_I_PER_P: f32 = 0.0;
pub const YAW_RATE_I_PER_P: f32 = 0.0;
