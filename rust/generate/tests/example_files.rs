//! The files of `examples/` are what the generator makes, and the reference answers them as their page says.

use std::fs;
use std::path::Path;

use reference::limits::{ANNOTATION_CELLS, MAX_ROOM, MAX_ROWS, ROW_CELLS, STEP_CELLS};
use reference::{
    check_names, check_run, judge_program, membership, read_json, read_term, sample_program, write_term,
};

fn example(name: &str) -> Vec<u8> {
    let path = Path::new(env!("CARGO_MANIFEST_DIR")).join("../../examples").join(name);
    fs::read(&path).unwrap_or_else(|error| panic!("{}: {error}", path.display()))
}

#[test]
fn the_files_are_what_the_generator_makes() {
    for (name, bytes) in generate::example_files::all() {
        assert!(example(name) == bytes, "{name} is not what `--example write_examples` writes");
    }
}

#[test]
fn the_bad_evening() {
    let judged = |text: &str| judge_program(&[example("agreed.set"), example(text)].concat());
    assert_eq!(judged("export.term"), b"yes\n");
    assert_eq!(judged("export-queue.term"), b"no\n");
    assert_eq!(judged("export-swapped.term"), b"no\n");
    assert_eq!(sample_program(&example("dead.set")), b"dead\n");
    assert!(sample_program(&example("agreed.set")).starts_with(b"alive 7\n"));
}

#[test]
fn lists_of_equal_pairs() {
    let set = example("pairs.set");
    let judged = |text: &str| judge_program(&[&set[..], text.as_bytes()].concat());
    assert_eq!(judged("s1(s0(s3=1,s3=1),s1(s0(s3=2,s3=2),s2))"), b"yes\n");
    assert_eq!(judged("s1(s0(s3=1,s3=1),s1(s0(s3=2,s3=3),s2))"), b"no\n");
    assert_eq!(sample_program(&set), b"alive 1\ns2\n");
}

#[test]
fn paired_servers() {
    let judged = |set: &str, export: &str| {
        let rows = read_json(&example("json/paired.keys"), &example(export), ROW_CELLS * MAX_ROWS);
        let (set, rows) = (example(set), rows.expect("the export is read").cells());
        let judgement = membership(&set, &rows, ANNOTATION_CELLS * MAX_ROOM, STEP_CELLS * MAX_ROOM);
        judgement.expect("there is room").is_yes()
    };
    assert!(judged("json/paired.set", "json/paired.json"));
    assert!(!judged("json/paired.set", "json/paired-mixed.json"));
    assert!(!judged("json/paired.set", "json/paired-odd.json"));
    assert!(!judged("json/paired-strict.set", "json/paired.json"));
}

#[test]
fn the_texts_are_as_the_writer_has_them_and_the_names_are_names() {
    let set = example("agreed.set");
    for name in ["export.term", "export-queue.term", "export-swapped.term"] {
        let text = example(name);
        let document = read_term(&set, b"", b"", &text, ROW_CELLS * MAX_ROWS).expect("sound");
        assert_eq!(write_term(&set, b"", b"", &document.cells(), text.len()), Ok(text));
    }
    assert!(check_names(&example("agreed.names"), b"", usize::from(set[0])).is_ok());
}

#[test]
fn the_list_saved_on_windows_serves_as_the_plain_one() {
    let (plain, windows) = (example("agreed.names"), example("agreed-windows.names"));
    assert_eq!(String::from_utf8_lossy(&windows), String::from_utf8_lossy(&plain).replace('\n', "\r\n"));
    let (set, text) = (example("agreed.set"), example("export.term"));
    let names = check_names(&plain, b"", usize::from(set[0]));
    assert!(names.as_ref().is_ok_and(|names| names[0] == b"export"));
    assert_eq!(check_names(&windows, b"", usize::from(set[0])), names);
    let document = read_term(&set, b"", b"", &text, ROW_CELLS * MAX_ROWS).expect("sound");
    let named = write_term(&set, &plain, b"", &document.cells(), usize::MAX).expect("sound");
    for (site, built_in) in [(&windows[..], &b""[..]), (b"", &windows)] {
        assert_eq!(write_term(&set, site, built_in, &document.cells(), named.len()), Ok(named.clone()));
        assert_eq!(read_term(&set, site, built_in, &named, ROW_CELLS * MAX_ROWS), Ok(document.clone()));
    }
}

/// The cells of a file, low byte first.
fn cells(name: &str) -> Vec<u16> {
    example(name).chunks_exact(2).map(|pair| u16::from_le_bytes([pair[0], pair[1]])).collect()
}

#[test]
fn the_files_of_set_e() {
    let (set, names, rows) = (example("e.set"), example("e.names"), cells("pair-7-7.rows"));
    assert_eq!(check_run(&set, &rows, &cells("pair-7-7.run")), Ok(()));
    assert!(check_run(&set, &cells("pair-7-8.rows"), &cells("pair-7-7.run")).is_err());
    assert_eq!(write_term(&set, b"", b"", &rows, 99), Ok(example("pair-7-7.term")));
    assert_eq!(write_term(&set, &names, b"", &rows, 99), Ok(b"pair(a=7,a=7)".to_vec()));
    assert_eq!(judge_program(&[set, example("pair-7-7.term")].concat()), b"yes\n");
}
