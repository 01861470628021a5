//! Idiomatic Rust that does what the library does, written for speed and clarity and with the library's refusals.

mod annotation;
pub mod boolean;
pub mod json;
pub mod membership;
pub mod moves;
pub mod remembering;
pub mod set;
pub mod table;
pub mod term;
pub mod witness;

/// What stands in a place that is not used.
pub const UNUSED: u16 = 65_535;

/// The bits of the rate that stands in no row: the reader of text takes it for 0.0, and a table with it is refused (14).
pub const MINUS_ZERO: u64 = (-0.0_f64).to_bits();
