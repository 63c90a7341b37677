//! Stub. Guidance uses nothing of this module.
