//! Document 01, with the wishes of document 02 that have landed, a second time: in plain Rust, written from the
//! papers alone.
//!
//! Nothing here is shared with the verified library. The methods are the simplest that follow the
//! papers' sentences, so that a reader can hold each function against its section. Every entry
//! point takes the lent inputs and the lengths of the lent spaces, and answers with a value or a
//! refusal; what a call leaves in the spaces follows from that answer.

pub mod automaton;
pub mod boolean;
pub mod brute_force;
pub mod document;
pub mod examples;
pub mod forms;
pub mod json_cursor;
pub mod json_keys;
pub mod json_number;
pub mod json_reader;
pub mod json_text;
pub mod json_tokens;
pub mod json_tree;
pub mod limits;
pub mod membership;
pub mod memory;
pub mod names;
pub mod programs;
pub mod refusal;
pub mod run;
pub mod stored;
pub mod table;
pub mod term_reader;
pub mod term_writer;
pub mod witness;

pub use automaton::{Automaton, Rule, State};
pub use boolean::{product, union};
pub use document::{check_document, Document, Row, Scalar, MINUS_ZERO};
pub use forms::{narrow_rules, narrow_states, widen_rules, widen_states, Form};
pub use json_reader::read_json;
pub use json_tree::json_tree;
pub use membership::{membership, Judgement};
pub use names::check_names;
pub use programs::{judge_program, sample_program};
pub use refusal::Refusal;
pub use run::{check_run, Step};
pub use stored::check_automaton;
pub use term_reader::read_term;
pub use term_writer::write_term;
pub use witness::witness;
