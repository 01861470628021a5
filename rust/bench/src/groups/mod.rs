//! What is measured, a file for each group: the inputs, the test that both sides agree, and the table.

pub mod boolean;
pub mod check;
pub mod hard;
mod judging;
pub mod membership;
pub mod moves;
pub mod read_json;
pub mod read_term;
mod texts;
pub mod witness;
pub mod write_term;
