//! What the documents work out by hand: bytes and cells are those of the files, and refusals those of the library.

use cidhomba::{read_json, Reason, ROW_CELLS};
use manual::page::{cells, Page};
use manual::{files, EXAMPLES, FORMATS, README, RUST};

/// A line of a worked block: `OFFSET  ELEMENT ELEMENT ..  WORDS`.
struct Line<'a> {
    offset: usize,
    elements: Vec<&'a str>,
}

fn parsed(line: &str) -> Option<Line<'_>> {
    let (offset, rest) = line.split_once("  ")?;
    let (elements, words) = rest.trim_start().split_once("  ")?;
    let elements = elements.split(' ').collect();
    (!words.trim().is_empty()).then_some(Line { offset: offset.parse().ok()?, elements })
}

/// Two lowercase hex digits.
fn byte(element: &str) -> Option<u8> {
    let byte = u8::from_str_radix(element, 16).ok()?;
    (format!("{byte:02x}") == element).then_some(byte)
}

/// A decimal number of 16 bits.
fn cell(element: &str) -> Option<u16> {
    let cell: u16 = element.parse().ok()?;
    (cell.to_string() == element).then_some(cell)
}

/// The elements of a block's lines, each line starting at the count of those before it.
fn worked<T>(first: usize, lines: &[String], element: fn(&str) -> Option<T>) -> Result<Vec<T>, String> {
    let mut found = Vec::new();
    for (number, line) in (first..).zip(lines) {
        let Line { offset, elements } = parsed(line).ok_or(format!("{number}: not a worked line: {line}"))?;
        if offset != found.len() {
            return Err(format!(
                "{number}: the line starts at {offset}, but {} stand before it",
                found.len()
            ));
        }
        for shown in elements {
            found.push(element(shown).ok_or(format!("{number}: not an element: {shown}"))?);
        }
    }
    Ok(found)
}

/// Where bytes are not those of a file of the examples.
fn difference(found: &[u8], file: &str) -> Option<String> {
    let bytes = files::bytes(&format!("examples/{file}"));
    let shared = found.iter().zip(&bytes).take_while(|(found, byte)| found == byte).count();
    let (here, there) = (found.len(), bytes.len());
    (found != bytes).then(|| format!("{here} bytes, and examples/{file} has {there}; byte {shared} differs"))
}

/// What is wrong with the `bytes` and the `cells` blocks of a document.
fn faults(page: &Page) -> Vec<String> {
    let mut faults = Vec::new();
    let mut compare = |line: usize, file: &str, found: Result<Vec<u8>, String>| match found {
        Ok(found) => faults.extend(difference(&found, file).map(|fault| format!("{line}: {fault}"))),
        Err(fault) => faults.push(fault),
    };
    for (block, file) in page.of_kind("bytes") {
        compare(block.line, file, worked(block.line + 1, &block.lines, byte));
    }
    for (block, file) in page.of_kind("cells") {
        let cells = worked(block.line + 1, &block.lines, cell);
        let low_byte_first = |cells: Vec<u16>| cells.into_iter().flat_map(u16::to_le_bytes).collect();
        compare(block.line, file, cells.map(low_byte_first));
    }
    faults
}

#[test]
fn worked_bytes_and_cells_are_those_of_the_files() {
    for name in [README, EXAMPLES, FORMATS, RUST] {
        let faults: Vec<String> =
            faults(&Page::read(name)).iter().map(|fault| format!("{name}:{fault}")).collect();
        assert!(faults.is_empty(), "\n{}\n", faults.join("\n"));
    }
    let formats = Page::read(FORMATS);
    for kind in ["bytes", "cells"] {
        assert!(formats.of_kind(kind).count() > 0, "{FORMATS} has no block of the kind {kind}");
    }
}

#[test]
fn what_is_worked_wrong_is_found() {
    let found = |kind: &str, lines: &str| {
        let text = format!("```{kind} e.names\n{lines}\n```\n");
        faults(&Page::parse("page", &text).expect("the block ends"))
    };
    assert_eq!(found("bytes", "0  70 61 69 72 0a 61  x\n6   0a 62 0a  y"), [""; 0]);
    for lines in [
        "0  70 61 69 72 0a 61  x\n6  0a 63 0a  y",
        "0  70 61 69 72 0a 61  x\n5  0a 62 0a  y",
        "0  70 61 69 72 0a 61  x\n6  0A 62 0a  y",
        "0  70 61 69 72 0a 61  x\n6  0a 62 0a",
        "0  70 61 69 72 0a 61  x",
    ] {
        assert_eq!(found("bytes", lines).len(), 1, "{lines}");
    }
    for lines in ["0  24944 29289  x", "0  024944  x", "0  65536  x", "1  24944  x"] {
        assert_eq!(found("cells", lines).len(), 1, "{lines}");
    }
}

/// The numbers of a table of refusals: its rows, but for its head, have a place, a number and a condition.
fn numbers(section: &[&str]) -> Vec<u8> {
    let rows: Vec<Vec<&str>> = section.iter().filter_map(|line| cells(line)).collect();
    let number = |row: &Vec<&str>| match row[..] {
        [_, number, condition] if !condition.is_empty() => number.parse().expect("a number"),
        _ => panic!("not a row of refusals: {row:?}"),
    };
    rows.iter().skip(2).map(number).collect()
}

#[test]
fn the_refusals_of_the_readme_are_those_of_the_library() {
    let mut found = numbers(&Page::read(README).section("## Refusals"));
    found.sort();
    let all: Vec<u8> = Reason::ALL.iter().map(|reason| reason.number()).collect();
    assert_eq!(found, all);
}

/// The numbers of refusals, which stand in round brackets, as `(16)` or `(else 16)`.
fn in_brackets(line: &str) -> Vec<u8> {
    let inside = line.split('(').skip(1).filter_map(|rest| rest.split_once(')'));
    let number = |(inside, _): (&str, &str)| {
        let number = inside.strip_prefix("else ").unwrap_or(inside);
        number.strip_prefix("refused with ").unwrap_or(number).parse().ok()
    };
    inside.filter_map(number).collect()
}

/// The forms are told with the refusal for each thing that is not so: those of sets, tables, runs, names, text, keys and
/// JSON.
#[test]
fn the_refusals_of_the_forms_are_those_of_the_library() {
    let page = Page::read(FORMATS);
    let found: Vec<u8> = page.prose.iter().flat_map(|(_, line)| in_brackets(line)).collect();
    for &number in &found {
        assert!(Reason::from_number(number).is_some(), "{FORMATS}: ({number}) is no refusal");
    }
    let of_a_form = |number: &u8| matches!(number, 1..=26 | 61..=67 | 71..=74);
    for number in Reason::ALL.iter().map(|reason| reason.number()).filter(of_a_form) {
        assert!(found.contains(&number), "{FORMATS} does not have ({number})");
    }
}

/// The lines of the table with this head.
fn table<'a>(section: &[&'a str], head: &str) -> Vec<Vec<&'a str>> {
    let below = section.iter().skip_while(|line| **line != head).skip(2);
    below.map_while(|line| cells(line)).collect()
}

/// What the library answers to JSON without keys, in space for so many rows.
fn json_answer(text: &str, rows: usize) -> String {
    match read_json(b"", text.as_bytes(), &mut vec![0; ROW_CELLS * rows]) {
        Ok(read) => format!("{} rows", read.len() / ROW_CELLS),
        Err(refusal) => format!("{} at {}", refusal.number(), refusal.place.expect("a place")),
    }
}

#[test]
fn json_is_answered_as_the_forms_have_it() {
    let page = Page::read(FORMATS);
    let lines = table(&page.section("## JSON text"), "| Text | Rows lent | Answer |");
    assert!(lines.len() > 9, "{FORMATS} has {} texts in JSON", lines.len());
    for line in lines {
        let [text, rows, answer] = line[..] else { panic!("not a line of texts: {line:?}") };
        let rows = rows.parse().expect("a number of rows");
        assert_eq!(json_answer(text.trim_matches('`'), rows), answer, "{text} in {rows} rows");
    }
    assert_eq!(json_answer(&("[".repeat(256) + "tru"), 1024), "64 at 256");
}

#[test]
fn numbers_of_refusals_are_found() {
    let table = ["| Place | Number | When |", "|---|---|---|", "| set | 1 | short |", "", "| | 2 | long |"];
    assert_eq!(numbers(&table), [1, 2]);
    let line = "at least (else refused with 2), `pair(0,0)`, (number 3), (else 4) or 5 (6)";
    assert_eq!(in_brackets(line), [2, 4, 6]);
}
