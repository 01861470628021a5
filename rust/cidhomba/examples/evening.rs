//! The bad evening: the agreed export is let in, the one with a field more is not, as term text and as JSON; and a set
//! is dead.

use std::fs;
use std::path::Path;

use cidhomba::*;

fn example(name: &str) -> Vec<u8> {
    let path = Path::new(env!("CARGO_MANIFEST_DIR")).join("../../examples").join(name);
    fs::read(&path).unwrap_or_else(|error| panic!("{}: {error}", path.display()))
}

/// Whether a set lets in the document of some rows, with all the room that there can be.
fn judged(set: &[u8], rows: &[u16]) -> Result<&'static str, Refusal> {
    let (mut work, mut run) = (vec![0; ANNOTATION_CELLS * MAX_ROOM], vec![0; STEP_CELLS * MAX_ROOM]);
    Ok(match membership(set, rows, &mut work, &mut run)? {
        Judgement::Yes(_) => "let in",
        Judgement::No => "turned away",
    })
}

/// Whether the agreed set lets in the export of a term text.
fn judged_term(text: &str) -> Result<&'static str, Refusal> {
    let set = example("agreed.set");
    let mut rows = vec![0; ROW_CELLS * MAX_ROWS];
    judged(&set, read_term(&set, Names::default(), &example(text), &mut rows)?)
}

/// Whether the agreed set for JSON lets in an export in JSON. Its symbols are those of the key list.
fn judged_json(text: &str) -> Result<&'static str, Refusal> {
    let (set, keys) = (example("json/evening.set"), example("json/evening.keys"));
    let mut rows = vec![0; ROW_CELLS * MAX_ROWS];
    judged(&set, read_json(&keys, &example(text), &mut rows)?)
}

/// Whether a set lets in anything.
fn lives(set: &str) -> Result<&'static str, Refusal> {
    let mut rows = vec![0; ROW_CELLS * MAX_STATES];
    Ok(match witness(&example(set), &mut rows)? {
        Witness::Live { .. } => "live",
        Witness::Dead => "dead",
    })
}

fn main() -> Result<(), Refusal> {
    println!("an export in the agreed shape: {}", judged_term("export.term")?);
    println!(
        "the same with a queue length in each line, before the weight: {}",
        judged_term("export-queue.term")?
    );
    println!("an export in JSON, in the agreed shape: {}", judged_json("json/evening.json")?);
    println!(
        "the same with a queue length in each server, before the weight: {}",
        judged_json("json/evening-queue.json")?
    );
    println!("a set that nothing satisfies: {}", lives("dead.set")?);
    Ok(())
}
