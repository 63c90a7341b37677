//! Stub. The names are re-exported; guidance does not use them.

pub struct YawController;
pub struct YawControllerConfig;
