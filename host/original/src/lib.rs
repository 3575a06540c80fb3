//! The original, compiled from its published source over stand-ins, behind plain functions on vectors.

include!(concat!(env!("OUT_DIR"), "/original.rs"));

/// Whether the source was there when this was built.
pub const PRESENT: bool = cfg!(source);

#[cfg(source)]
mod plain;
#[cfg(source)]
pub use plain::*;
