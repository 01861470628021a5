//! The C header: it compiles as C and as C++ without a warning, and what it says of versions, sizes, refusals, NULL
//! and spaces is so. `header.c` prints one line for each thing that is held here.

use std::path::PathBuf;
use std::process::Command;
use std::sync::OnceLock;

use cidhomba::*;
use manual::page::{cells, Page};
use manual::process::{printed, under_valgrind};
use manual::scratch::Scratch;
use manual::{files, README};

const AS_C: [&str; 2] = ["gcc", "-std=c99"];
const AS_CPP: [&str; 4] = ["g++", "-std=c++11", "-x", "c++"];

/// Compiles `header.c` against the header and the library.
fn compiled(compiler: &[&str], scratch: &Scratch) -> PathBuf {
    let program = scratch.path().join(compiler[0]);
    let mut command = Command::new(compiler[0]);
    command.args(&compiler[1..]).args(["-pedantic", "-Wall", "-Wextra", "-Werror", "-I"]);
    command.arg(files::root().join("include")).arg(files::root().join("rust/manual/tests/header.c"));
    // The library is not to be read as a source.
    command.args(["-x", "none"]).arg(files::library()).arg("-o").arg(&program);
    assert_eq!(printed(&mut command), "");
    program
}

/// What the program in C prints, all of it.
fn in_c() -> &'static str {
    static PRINTED: OnceLock<String> = OnceLock::new();
    PRINTED.get_or_init(|| printed(&mut Command::new(compiled(&AS_C, &Scratch::new("printed")))))
}

/// What stands behind a beginning, line by line.
fn behind<'a>(beginning: &str) -> Vec<&'a str> {
    in_c().lines().filter_map(|line| line.strip_prefix(beginning)).collect()
}

#[test]
fn c_and_cpp_say_the_same_and_valgrind_says_nothing() {
    let scratch = Scratch::new("both");
    let as_c = compiled(&AS_C, &scratch);
    let as_cpp = compiled(&AS_CPP, &scratch);
    for program in [&as_c, &as_cpp] {
        assert_eq!(printed(&mut Command::new(program)), in_c());
        assert_eq!(printed(&mut under_valgrind(program)), in_c());
    }
}

#[test]
fn the_version_is_that_of_the_crates() {
    assert_eq!(behind("version: "), [env!("CARGO_PKG_VERSION")]);
    assert_eq!(behind("parts: "), [env!("CARGO_PKG_VERSION")]);
}

#[test]
fn the_words_of_refusals_are_those_of_the_wrapper() {
    for number in 0..=255 {
        let words = Reason::from_number(number).map_or("an unknown number", Reason::condition);
        assert_eq!(behind(&format!("{number}: ")), [words]);
    }
}

#[test]
fn the_sizes_are_those_of_the_wrapper() {
    let cells = [
        MAX_ROOM * ANNOTATION_CELLS,
        MAX_ROOM * STEP_CELLS,
        MAX_ROWS * ROW_CELLS,
        MAX_STATES * ROW_CELLS,
        MAX_SET_BYTES,
        32_768,
    ];
    assert_eq!(behind("sizes: "), [cells.map(|size| size.to_string()).join(" ")]);
    assert_eq!(cells, [131_072, 24_576, 10_240, 2_560, 15_184, 32_768]);
}

/// For each function what its calls answer where one slice after the other has the count 0, and where all have: the
/// number of a refusal, or 0 for a value.
const WITHOUT: [(&str, &[u8]); 14] = [
    ("check_automaton", &[1, 1]),
    ("check_document", &[1, 11, 1]),
    ("check_run", &[1, 11, 21, 1]),
    ("membership", &[1, 11, 31, 32, 1]),
    ("union", &[1, 1, 53, 1]),
    ("product", &[1, 1, 53, 1]),
    ("widen_states", &[1, 53, 1]),
    ("narrow_states", &[1, 53, 1]),
    ("widen_rules", &[1, 53, 1]),
    ("narrow_rules", &[1, 53, 1]),
    ("witness", &[1, 42, 1]),
    ("read_term", &[1, 65, 0, 63, 67, 1]),
    ("write_term", &[1, 0, 0, 11, 68, 1]),
    ("read_json", &[0, 71, 67, 71]),
];

/// The number of a refusal in a word, or 0.
fn number(word: &str) -> u8 {
    word::parts(word.parse().expect("a word")).err().map_or(0, |(number, _)| number)
}

#[test]
fn null_is_as_good_as_any_pointer_where_the_count_is_0() {
    for (name, numbers) in WITHOUT {
        let whole = behind(&format!("whole {name}: "));
        assert!(whole.len() == 1 && number(whole[0]) == 0, "{name} answers a value: {whole:?}");
        let lines = behind(&format!("without {name} "));
        assert_eq!(lines.len(), numbers.len(), "{name}");
        for (line, &expected) in lines.iter().zip(numbers) {
            let (_, answers) = line.split_once(": ").expect("two answers");
            let (with_a_pointer, with_null) = answers.split_once(' ').expect("two answers");
            assert_eq!(with_null, with_a_pointer, "{name} {line}");
            assert_eq!(number(with_null), expected, "{name} {line}");
        }
    }
}

/// Bytes in hex, as the program in C prints them.
fn hex(bytes: &[u8]) -> String {
    bytes.iter().map(|byte| format!("{byte:02x}")).collect()
}

#[test]
fn results_fill_spaces_that_were_never_written() {
    let set = files::bytes("examples/e.set");
    let (mut out, mut space) = ([0; MAX_SET_BYTES], [0; 2 * ROW_CELLS]);
    let hold = |answer: &str, bytes: &[u8]| assert_eq!(behind(&format!("result {answer} ")), [hex(bytes)]);
    hold("union: 103", union(&set, &set, &mut out).expect("a set"));
    hold("product: 67", product(&set, &set, &mut out).expect("a set"));
    hold("widen_states: 61", widen_states(&set, &mut out).expect("a set"));
    hold("narrow_states: 59", &set);
    let wide = files::bytes("examples/e-wide.set");
    hold("widen_rules: 67", widen_rules(&wide, &mut out).expect("a set"));
    hold("narrow_rules: 61", &wide);
    let lowest = witness(&set, &mut space).expect("a document");
    let Witness::Live { rows, levels: 2 } = lowest else { panic!("{lowest:?}") };
    let rows: Vec<u8> = rows.iter().flat_map(|cell| cell.to_le_bytes()).collect();
    hold(&format!("witness: {}", 2 + 65_536 * 2), &rows);
    hold("read_term: 2", &files::bytes("examples/pair-7-7.rows"));
    hold("membership: 2", &files::bytes("examples/pair-7-7.run"));
    hold("write_term: 13", b"pair(a=7,a=7)");
    let mut space = [0; 3 * ROW_CELLS];
    let rows = read_json(b"k", br#"{"k":1}"#, &mut space).expect("a document");
    let rows: Vec<u8> = rows.iter().flat_map(|cell| cell.to_le_bytes()).collect();
    hold("read_json: 3", &rows);
}

/// A text without what stands between `/*` and `*/`.
fn without_comments(text: &str) -> String {
    let mut pieces = text.split("/*");
    let first = pieces.next().unwrap_or_default().to_string();
    pieces.fold(first, |kept, piece| kept + piece.split_once("*/").expect("a comment ends").1)
}

/// The functions that a header declares and does not define, in order.
fn declared(header: &str) -> Vec<String> {
    let text = without_comments(header);
    let ended = text.split(';').filter_map(|declaration| declaration.trim_end().strip_suffix(')'));
    let name = |declaration: &str| {
        let (before, _) = declaration.rsplit_once('(')?;
        let name = before.split([' ', '*', '\n']).next_back()?;
        name.starts_with("cidhomba_").then(|| name.to_string())
    };
    ended.filter_map(name).collect()
}

#[test]
fn the_entry_points_of_the_readme_are_those_of_the_header() {
    let page = Page::read(README);
    let rows = page.section("## Entry points").into_iter().filter_map(cells).skip(2);
    let in_the_readme: Vec<String> = rows.map(|row| row[0].trim_matches('`').to_string()).collect();
    assert_eq!(in_the_readme, declared(&files::text("include/cidhomba.h")));
    let tried = WITHOUT.map(|(name, _)| format!("cidhomba_{name}"));
    assert_eq!(in_the_readme, tried, "header.c calls every function");
}

#[test]
fn declarations_are_found() {
    let text = "/* int cidhomba_no(int); */\nint cidhomba_a(int x,\n  char *y);\nstatic inline int cidhomba_b(int x)\n\
        {\n    return x;\n}\nvoid cidhomba_c(void);\n#define CIDHOMBA_D(x) (x)\n";
    assert_eq!(declared(text), ["cidhomba_a", "cidhomba_c"]);
}
