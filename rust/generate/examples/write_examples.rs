//! Writes the files of `examples/` anew.

use std::fs;
use std::path::Path;

fn main() {
    let directory = Path::new(env!("CARGO_MANIFEST_DIR")).join("../../examples");
    for (name, bytes) in generate::example_files::all() {
        fs::write(directory.join(name), &bytes).unwrap_or_else(|error| panic!("{name}: {error}"));
        println!("{name}: {} bytes", bytes.len());
    }
}
