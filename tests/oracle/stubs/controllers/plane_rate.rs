//! Stub. The names are re-exported; guidance does not use them.

pub struct PlaneRateController;
pub struct PlaneRateControllerConfig;
pub struct RateGains;
