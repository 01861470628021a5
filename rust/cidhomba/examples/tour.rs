//! Shows the library at work on a set, on documents, and on damaged copies of them.

use std::fs;
use std::path::{Path, PathBuf};

use cidhomba::{check_automaton, check_document, Refusal};

fn example(name: &str) -> Vec<u8> {
    let path: PathBuf = Path::new(env!("CARGO_MANIFEST_DIR")).join("../../examples").join(name);
    fs::read(&path).unwrap_or_else(|error| panic!("{}: {error}", path.display()))
}

fn cells(bytes: &[u8]) -> Vec<u16> {
    bytes.chunks_exact(2).map(|pair| u16::from_le_bytes([pair[0], pair[1]])).collect()
}

fn told(what: &str, answer: Result<(), Refusal>) {
    match answer {
        Ok(()) => println!("{what}: sound"),
        Err(refusal) => println!("{what}: {refusal}"),
    }
}

fn main() {
    let set = example("e.set");
    let equal = cells(&example("pair-7-7.rows"));
    told("set E", check_automaton(&set));
    told("set E without its last byte", check_automaton(&set[..58]));
    let mut tagged = set.clone();
    tagged[20] = 2;
    told("set E with a tag that it does not have", check_automaton(&tagged));
    told("pair(a=7,a=7)", check_document(&set, &equal));
    let mut late = equal.clone();
    late[11] = 1;
    told("pair(a=7,a=7) with a child that is not lower", check_document(&set, &late));
}
