//! Stub. It hands on the derivative history, which only the controllers' own modules can name.

pub(crate) use super::derivative::DerivativeState;
