//! The two zeros are one load (document 02, Wish 6), through all functions that read, check, judge or write rows: text
//! may spell a zero with either sign, and no row may have the one with its sign bit set.

use cidhomba::interface;
use compare::answer::Answer;
use compare::calls::{check_document, check_run, membership, read_term, write_term};
use compare::lent::Lent;
use compare::tally::{Tally, TABLE, TEXT};
use generate::{documents, rows, runs, sets, texts, Random};
use reference::examples::set_e;
use reference::limits::{ANNOTATION_CELLS, MAX_ROWS, ROW_CELLS, STEP_CELLS};
use reference::{check_names, Automaton, Scalar, MINUS_ZERO};

/// Zero as the writer spells it, with its sign bit set, and a rate that no text of loads has.
const ZERO: &str = "~0000000000000000";
const MINUS: &str = "~8000000000000000";
const NO_LOAD: &str = "~00000000000000ff";

/// Cells of a row space that serves every text.
const ROW_SPACE: usize = ROW_CELLS * MAX_ROWS;

/// The names shown for a set's symbols without name lists.
fn plain_names(automaton: &Automaton) -> Vec<Vec<u8>> {
    check_names(b"", b"", automaton.arities.len()).expect("empty lists are sound")
}

/// A set with tags, and a text of loads over its symbols.
fn loads(random: &mut Random) -> Option<(Automaton, String)> {
    let automaton = match random.below(3) {
        0 => sets::automaton(random, &sets::tagged_sizes()),
        _ => sets::of_equal_parts(random),
    };
    let text = texts::of_loads(random, &automaton, &plain_names(&automaton))?;
    Some((automaton, String::from_utf8(text).expect("letters, digits and marks")))
}

/// The set that asks for the same shape and for no equal parts.
fn without_tags(automaton: &Automaton) -> Vec<u8> {
    let mut untagged = automaton.clone();
    untagged.states.iter_mut().for_each(|state| state.tags = 0);
    untagged.encode()
}

/// The rows that the library reads from a text.
fn rows_of(set: &[u8], text: &str) -> Vec<u16> {
    let mut space = vec![0; ROW_SPACE];
    let word = interface::read_term(set, b"", b"", text.as_bytes(), &mut space);
    let Answer::Value(rows) = Answer::of_library(word) else { panic!("a sound text: {text}") };
    space.truncate(ROW_CELLS * rows as usize);
    space
}

/// Compares how rows are judged, with more room than a document of loads needs.
fn judged(set: &[u8], rows: &[u16]) -> Answer {
    const ROOM: usize = 1000;
    membership(set, rows, ANNOTATION_CELLS * ROOM, STEP_CELLS * ROOM)
}

/// By all bits, as document 01 compared rates, some of these texts have more rows, and some are not let in.
#[test]
fn zeros_of_either_sign_are_one_row_and_equal_under_tags() {
    let mut reading = Tally::of("read_term, zeros of either sign");
    let mut judging = Tally::of("membership, zeros of either sign");
    for (automaton, text) in (0..4000).filter_map(|seed| loads(&mut Random::new(seed))) {
        let set = automaton.encode();
        let read = read_term(&set, b"", b"", text.as_bytes(), ROW_SPACE);
        let (rows, rows_by_bits) = (rows_of(&set, &text), rows_of(&set, &text.replace(MINUS, NO_LOAD)));
        let fewer_rows = rows.len() < rows_by_bits.len();
        reading.count(read, |_| if fewer_rows { "with fewer rows than by bits" } else { "with as many" });
        let (answer, by_bits) = (judged(&set, &rows), judged(&set, &rows_by_bits));
        judging.count(answer, |steps| match steps {
            0 if judged(&without_tags(&automaton), &rows) == answer => "no, by its shape",
            0 => "no, by its tags",
            _ if by_bits == Answer::Value(0) => "yes, but no by bits",
            _ => "yes",
        });
        if answer == Answer::Value(0) {
            assert_eq!(by_bits, answer, "parts that are equal by bits are equal: {text}");
        }
    }
    reading.must_reach(500, 200, &[], &["with fewer rows than by bits", "with as many"]);
    judging.must_reach(500, 200, &[], &["yes", "yes, but no by bits", "no, by its tags"]);
}

/// The places of faults are the same too, since both zeros have as many bytes.
#[test]
fn a_text_with_its_zeros_made_one_reads_to_the_same_rows() {
    let mut tally = Tally::of("read_term, with the zeros made one");
    for seed in 0..20_000 {
        let random = &mut Random::new(seed);
        let automaton = sets::automaton(random, &sets::tagged_sizes());
        let names = plain_names(&automaton);
        let text = match texts::of_loads(random, &automaton, &names) {
            Some(text) if random.percent(30) => text,
            _ => texts::text(random, &automaton, &names, 60),
        };
        let plenty = ROW_CELLS * random.pick(&[60, MAX_ROWS]);
        let row_cells = if random.percent(15) { random.below(60) } else { plenty };
        let made_one = with_zeros_made_one(&text);
        let read = |text: &[u8]| {
            let mut rows = Lent::of_length(row_cells);
            let word = interface::read_term(&automaton.encode(), b"", b"", text, rows.space());
            (Answer::of_library(word), rows.contents().to_vec())
        };
        let (answer, rows) = read(&text);
        assert_eq!(read(&made_one), (answer, rows), "seed {seed}: {}", text.escape_ascii());
        tally.count(answer, |_| if made_one == text { "of one spelling" } else { "of two spellings" });
    }
    tally.must_reach(500, 200, &TEXT, &["of one spelling", "of two spellings"]);
}

/// A text, faulty or not, with every zero spelled as the writer does.
fn with_zeros_made_one(text: &[u8]) -> Vec<u8> {
    let mut text = text.to_vec();
    for at in 0..text.len() {
        if text[at..].starts_with(MINUS.as_bytes()) {
            text[at..at + ZERO.len()].copy_from_slice(ZERO.as_bytes());
        }
    }
    text
}

/// Bits that are set alone or missing alone, with either sign, and those of infinities and NaNs.
fn telling_bits() -> impl Iterator<Item = u64> {
    let alone = (0..64).map(|place| 1 << place).flat_map(|bit: u64| [bit, MINUS_ZERO | bit]);
    let no_numbers = [f64::INFINITY, f64::NEG_INFINITY, f64::NAN, -f64::NAN].map(f64::to_bits);
    alone.flat_map(|bits| [bits, !bits]).chain(no_numbers)
}

#[test]
fn only_the_zero_with_its_sign_bit_set_is_written_back_in_other_digits() {
    let set = set_e().encode();
    let mut changed = 0;
    for bits in telling_bits() {
        let text = format!("s1~{bits:016x}");
        assert_eq!(read_term(&set, b"", b"", text.as_bytes(), ROW_CELLS), Answer::Value(1), "{text}");
        let rows = rows_of(&set, &text);
        assert_eq!(write_term(&set, b"", b"", &rows, text.len()), Answer::Value(19), "{text}");
        let mut back = [0; 19];
        interface::write_term(&set, b"", b"", &rows, &mut back);
        let expected = if bits == MINUS_ZERO { "s1~0000000000000000" } else { &text };
        assert_eq!(back.escape_ascii().to_string(), expected);
        changed += usize::from(back != text.as_bytes());
    }
    assert_eq!(changed, 2, "these bits come alone, and with a sign bit that they have already");
}

#[test]
fn a_sign_tells_all_rates_apart_but_the_zeros() {
    let set = set_e().encode();
    for bits in telling_bits().chain([0]) {
        let text = format!("s0(s1~{bits:016x},s1~{:016x})", bits ^ MINUS_ZERO);
        let (rows, steps) = if matches!(bits, 0 | MINUS_ZERO) { (2, 2) } else { (3, 0) };
        assert_eq!(read_term(&set, b"", b"", text.as_bytes(), ROW_SPACE), Answer::Value(rows), "{text}");
        assert_eq!(judged(&set, &rows_of(&set, &text)), Answer::Value(steps), "{text}");
    }
}

/// Compares a table at each function that takes one, with spaces that would serve; all must answer the same refusal.
fn refused_everywhere(set: &[u8], rows: &[u16], run: &[u16]) -> Answer {
    let answer = check_document(set, rows);
    let others = [
        membership(set, rows, ANNOTATION_CELLS * 40, STEP_CELLS * 40),
        check_run(set, rows, run),
        write_term(set, b"", b"", rows, 600),
    ];
    assert_eq!(others, [answer; 3]);
    answer
}

/// The table is sound, and the run as good as any, but for the leaves that have that rate.
#[test]
fn a_leaf_with_the_zero_that_may_not_stand_in_a_row_is_14_everywhere() {
    let mut tally = Tally::of("check_document, membership, check_run and write_term, minus zero in a leaf");
    for seed in 0..2000 {
        let random = &mut Random::new(seed);
        let automaton = sets::automaton(random, &sets::small_sizes());
        let most = random.pick(&[1, 4, 12, 40]);
        let Some(document) = documents::document(random, &automaton, most) else { continue };
        let set = automaton.encode();
        assert_eq!(check_document(&set, &document.cells()), Answer::Value(0), "seed {seed}");
        let run = runs::lent(random, &automaton, &document, 20);
        let rows = rows::with_minus_zero(random, &document);
        tally.count(refused_everywhere(&set, &rows, &run), |_| "passes");
    }
    tally.must_reach(400, 400, &[14], &[]);
}

/// What else is due shows with another rate in that leaf: 11 to 13 are tried before, 15 to 17 behind.
#[test]
fn other_numbers_that_are_due_come_before_14_or_behind_it() {
    let mut tally = Tally::of("check_document, what is due beside 14");
    for seed in 0..8000 {
        let random = &mut Random::new(seed);
        let automaton = sets::automaton(random, &sets::small_sizes());
        let Some(document) = documents::document(random, &automaton, 12) else { continue };
        let set = automaton.encode();
        let damaged = rows::damaged(random, &automaton, document);
        let with_rate = |bits: u64| {
            // The same leaf for both rates.
            let mut rows = damaged.clone();
            rows::give_a_leaf(&mut Random::new(seed), &mut rows, Scalar::Rate(bits));
            rows
        };
        let due = check_document(&set, &with_rate(MINUS_ZERO | 1));
        tally.count(due, |_| "nothing");
        let expected = due.number().filter(|number| *number < 14).unwrap_or(14);
        let answer = refused_everywhere(&set, &with_rate(MINUS_ZERO), &[]);
        assert_eq!(answer.number(), Some(expected), "seed {seed}");
    }
    tally.must_reach(2000, 200, &TABLE, &["nothing"]);
}
