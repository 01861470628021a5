//! The example in C compiles against the header without a warning, links the library, and prints what it should;
//! and the header has the reasons that the wrapper has.

use std::fs;
use std::path::{Path, PathBuf};
use std::process::Command;

use cidhomba::Reason;

/// A file of the repository.
fn file(name: &str) -> PathBuf {
    Path::new(env!("CARGO_MANIFEST_DIR")).join("../..").join(name)
}

/// What the example prints.
const PRINTED: &str = "\
     set E: 0\n\
     set E without its last byte: refused 3, an offset, the total or the length of the set differs from the formulas \
     of every form, or its states have one byte for over 8 tags\n\
     pair(a=7,a=7): 0\n\
     its first row: 0\n\
     half a row: refused 11, the table has no rows, over 1,024, or a row cut short\n\
     its run: 0\n\
     the run on pair(a=7,a=8): refused 23, the symbols of a step's rule and row differ, or a step place is not as it should be\n\
     steps for pair(a=7,a=7): 2\n\
     steps for pair(a=7,a=8), which is turned away: 0\n\
     bytes of E or E: 103\n\
     bytes of E and E: 67\n\
     no space: refused 53, the space is shorter than the result\n\
     bytes of E in the wide form: 61\n\
     steps for pair(a=7,a=7) by it: 2\n\
     bytes of that in the isolating form: 67\n\
     steps for pair(a=7,a=7) by it: 2\n\
     bytes of it in the wide form: 61\n\
     the same with a tag to forget: refused 10, a rule of the set forgets a tag, and its rules cannot be narrowed\n\
     bytes of the wide form in the narrow one: 59\n\
     set E, which is not in the wide form, narrowed: refused 18, the set is not in the form that the move starts from, \
     by its states or by its rules\n\
     levels of a lowest document: 2\n\
     its rows: 2\n\
     rows of pair(a=7,b#3): 3\n\
     rows of pair(a=7,c): refused 65 at 9, the text has an unknown name\n\
     a server in JSON: let in\n\
     one with a queue before the weight: turned away\n\
     one with two names: refused 72 at 10, a key is repeated in one object\n\
     bytes of a text: 13\n\
     pair(a=7,a=7)\n";

#[test]
fn the_example_in_c() {
    let output = Command::new(file("examples/run-c")).output().expect("the script starts");
    let errors = String::from_utf8_lossy(&output.stderr);
    assert!(output.status.success(), "{errors}");
    assert_eq!(String::from_utf8_lossy(&output.stdout), PRINTED);
}

/// `SET_TOO_SHORT` as `SetTooShort`.
fn camel_case(name: &str) -> String {
    let capitalised = |word: &str| word[..1].to_string() + &word[1..].to_lowercase();
    name.split('_').map(capitalised).collect()
}

#[test]
fn the_header_and_the_enum_have_the_same_reasons() {
    let header = fs::read_to_string(file("include/cidhomba.h")).expect("the header is there");
    let (_, behind) = header.split_once("enum cidhomba_refusal {").expect("the header has the enum");
    let (enumerators, _) = behind.split_once("};").expect("the enum ends");
    let named = |line: &str| {
        let (name, value) = line.trim().strip_prefix("CIDHOMBA_")?.split_once(" = ")?;
        let number = value.split([',', ' ']).next()?.parse().expect("a number");
        Some((camel_case(name), number))
    };
    let in_c: Vec<(String, u8)> = enumerators.lines().filter_map(named).collect();
    let in_rust: Vec<(String, u8)> =
        Reason::ALL.iter().map(|reason| (format!("{reason:?}"), reason.number())).collect();
    assert_eq!(in_c, in_rust);
}
