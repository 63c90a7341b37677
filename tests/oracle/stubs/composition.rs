//! Stub. The name is re-exported; guidance does not use it.

pub struct ComposedVehicle;
