//! The proved engine, as the static library, beside the second engine.

pub mod engines;
