//! Comparison of the verified library with the separately written reference.
//!
//! Each function of the library has a test program of its own in `tests/`, and so has what concerns several of them. A
//! comparison calls the library on spaces filled with junk, asks the reference the same, and holds against each other the
//! answers and everything that the call may have written. A difference prints the input.

pub mod answer;
pub mod calls;
pub mod case;
pub mod lent;
pub mod lists;
pub mod tally;
