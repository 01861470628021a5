//! Where things stand: the repository, and what was built.

use std::env;
use std::fs;
use std::path::{Path, PathBuf};

/// The repository's root.
pub fn root() -> PathBuf {
    let crate_directory = Path::new(env!("CARGO_MANIFEST_DIR"));
    crate_directory.ancestors().nth(2).expect("the crate is two levels down").to_path_buf()
}

/// The bytes of a file of the repository.
pub fn bytes(name: &str) -> Vec<u8> {
    fs::read(root().join(name)).unwrap_or_else(|error| panic!("{name}: {error}"))
}

/// The text of a file of the repository.
pub fn text(name: &str) -> String {
    String::from_utf8(bytes(name)).unwrap_or_else(|error| panic!("{name}: {error}"))
}

/// What was built, in a directory that a variable names, or else in the repository's own.
fn built(variable: &str, own: &str, name: &str) -> PathBuf {
    let other = env::var_os(variable).filter(|other| !other.is_empty());
    other.map_or_else(|| root().join(own), PathBuf::from).join(name)
}

/// The static library.
pub fn library() -> PathBuf {
    built("CIDHOMBA_LIBRARY_DIR", "target/staticlib", "libcidhomba.a")
}

/// One of the two programs.
pub fn program(name: &str) -> PathBuf {
    built("CIDHOMBA_PROGRAMS_DIR", "target/bin", name)
}
