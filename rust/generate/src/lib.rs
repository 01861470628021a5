//! Seeded inputs, sound and damaged, for the tests of reference and library.
//!
//! Every input follows from a seed, so a test that fails can be run again on the same input.

pub mod crowded_leaves;
pub mod documents;
pub mod example_files;
pub mod export;
pub mod json_export;
pub mod json_lists;
pub mod json_series;
pub mod json_sets;
pub mod json_shapes;
pub mod json_texts;
pub mod json_values;
pub mod lists;
pub mod meeting;
pub mod paired_export;
pub mod paired_list;
pub mod pairs;
pub mod picked_leaves;
pub mod random;
pub mod rows;
pub mod runs;
pub mod set_bytes;
pub mod sets;
pub mod texts;
pub mod three_rows;
pub mod towers;
pub mod trees;
pub mod wide_export;

pub use random::Random;
