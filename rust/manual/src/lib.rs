//! What the documents say, tried: what the tests here share.

pub mod files;
pub mod page;
pub mod process;
pub mod scratch;

/// The documents whose commands are run and whose worked examples are compared.
pub const README: &str = "README.md";
pub const EXAMPLES: &str = "examples/README.md";
pub const FORMATS: &str = "docs/FORMATS.md";
pub const RUST: &str = "rust/README.md";
