//! The refusals of the library's source are those of the C header: names, numbers and words.

use std::collections::BTreeMap;

use manual::files;

/// A refusal's name without case and underscores, its number and its words.
type Refusals = BTreeMap<String, (u16, String)>;

/// The part of a text from one phrase up to another.
fn between<'a>(text: &'a str, from: &str, to: &str) -> &'a str {
    let rest = &text[text.find(from).expect("the part begins") + from.len()..];
    &rest[..rest.find(to).expect("the part ends")]
}

fn folded(name: &str) -> String {
    name.trim().replace('_', "").to_lowercase()
}

/// What stands in quotes, joined.
fn quoted(text: &str) -> String {
    text.split('"').skip(1).step_by(2).collect()
}

/// `NAME = NUMBER` of each line that has both.
fn numbers(part: &str, prefix: &str) -> BTreeMap<String, u16> {
    part.lines()
        .filter_map(|line| line.trim().strip_prefix(prefix)?.split_once('='))
        .filter_map(|(name, rest)| {
            let digits: String = rest.trim().chars().take_while(char::is_ascii_digit).collect();
            Some((folded(name), digits.parse().ok()?))
        })
        .collect()
}

fn with_words(numbers: BTreeMap<String, u16>, mut words: BTreeMap<String, String>) -> Refusals {
    numbers
        .into_iter()
        .map(|(name, number)| {
            let text = words.remove(&name).expect("each refusal has words");
            (name, (number, text))
        })
        .collect()
}

fn of_header() -> Refusals {
    let header = files::text("include/cidhomba.h");
    let names = numbers(between(&header, "enum cidhomba_refusal {", "};"), "CIDHOMBA_");
    let words = between(&header, "*cidhomba_refusal_text(", "default:")
        .split("case CIDHOMBA_")
        .skip(1)
        .filter_map(|case| case.split_once(':'))
        .map(|(name, text)| (folded(name), quoted(text)))
        .collect();
    with_words(names, words)
}

fn of_source() -> Refusals {
    let source = files::text("crates/base/src/refusal.rt");
    let names = numbers(between(&source, "pub enum Refusal {", "\n}"), "");
    let words = between(&source, "impl fmt::Display for Refusal", "\n}")
        .split("Refusal::")
        .skip(1)
        .filter_map(|arm| arm.split_once("=>"))
        .map(|(name, text)| (folded(name), quoted(text)))
        .collect();
    with_words(names, words)
}

#[test]
fn the_source_has_the_headers_refusals() {
    let header = of_header();
    assert_eq!(header.len(), 44);
    assert_eq!(of_source(), header);
}
