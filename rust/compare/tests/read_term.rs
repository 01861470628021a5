//! The library's reader of term text against the reference's.

use cidhomba::interface::read_term;
use compare::answer::Answer;
use compare::calls::{read_term as compare, read_term_saved as compare_saved};
use compare::lent::Lent;
use compare::lists::NamedExport;
use compare::tally::{Tally, NAMES, SET, TEXT};
use generate::{documents, lists, set_bytes, sets, texts, Random};
use reference::check_names;
use reference::examples::{set_e, set_g};
use reference::limits::{MAX_ROWS, ROW_CELLS};
use reference::term_writer::text_within;

/// Compares a text against E without name lists, with row space for nine rows.
fn compare_plain(text: &[u8]) -> Answer {
    compare(&set_e().encode(), b"", b"", text, ROW_CELLS * 9)
}

/// What a call is lent.
struct Call {
    set: Vec<u8>,
    site: Vec<u8>,
    built_in: Vec<u8>,
    text: Vec<u8>,
    row_cells: usize,
}

fn seeded(random: &mut Random) -> Call {
    let sizes = sets::any_sizes(random);
    let automaton = sets::any_automaton(random, &sizes);
    let symbols = automaton.arities.len();
    let (site, built_in) = lists::both(random, symbols, 15);
    let names = check_names(&site, &built_in, symbols)
        .unwrap_or_else(|_| check_names(b"", b"", symbols).expect("empty lists are sound"));
    let text = texts::text(random, &automaton, &names, 60);
    let plenty = ROW_CELLS * random.pick(&[MAX_ROWS, MAX_ROWS, MAX_ROWS + 5, 60]);
    let row_cells = if random.percent(15) { random.below(120) } else { plenty };
    let set = set_bytes::stored(random, &automaton, 13);
    Call { set, site, built_in, text, row_cells }
}

#[test]
fn seeded_texts() {
    let mut tally = Tally::of("read_term");
    for seed in 0..30_000 {
        let Call { set, site, built_in, text, row_cells } = seeded(&mut Random::new(seed));
        tally.count(compare(&set, &site, &built_in, &text, row_cells), |_| "read");
    }
    let numbers = [&SET[..], &NAMES, &TEXT].concat();
    tally.must_reach(20_000, 200, &numbers, &["read"]);
}

#[test]
fn spaces_and_bytes_13_at_the_ends_of_lines_change_no_answer_and_no_row() {
    let mut tally = Tally::of("read_term, lists saved in two ways");
    for seed in 0..15_000 {
        let random = &mut Random::new(seed);
        let Call { set, site, built_in, text, row_cells } = seeded(random);
        for saved in lists::saved_in_two_ways(random, &site, &built_in) {
            let answer = compare_saved(&set, (&saved.0, &saved.1), (&site, &built_in), &text, row_cells);
            tally.count(answer, |_| "read");
        }
    }
    let numbers = [&SET[..], &NAMES, &TEXT].concat();
    tally.must_reach(20_000, 200, &numbers, &["read"]);
}

#[test]
fn with_the_windows_list_of_the_examples_a_text_is_read_to_the_same_rows() {
    let NamedExport { set, rows, text, plain, windows } = NamedExport::of_the_examples();
    let answers = [
        compare_saved(&set, (&windows, b""), (&plain, b""), &text, rows.len()),
        compare_saved(&set, (b"", &windows), (b"", &plain), &text, rows.len()),
    ];
    assert_eq!(answers, [Answer::Value((rows.len() / ROW_CELLS) as u64); 2]);
}

/// Texts with every kind of scalar and ending.
const TELLING_TEXTS: [&str; 13] = [
    "s0(s1,s2)",
    "s0(s0(s1=0,s2),s0(s1=0,s2))",
    "s1=18446744073709551615",
    "s1#4294967295",
    "s1~0123456789abcdef",
    "s0(s1=true,s2=false)",
    "s0(s1=7,s1#7)",
    "s0(s1~0000000000000000,s1~8000000000000000)",
    "s0(s1~8000000000000000,s1~8000000000000001)",
    "s0(s1,s1=0)",
    "s1=10",
    "s9(s1)",
    "aaaaaaaaaaaaaaaa",
];

#[test]
fn every_byte_and_every_length_of_telling_texts() {
    let mut tally = Tally::of("read_term, byte by byte");
    for text in TELLING_TEXTS.map(str::as_bytes) {
        for at in 0..=text.len() {
            tally.count(compare_plain(&text[..at]), |_| "read");
            for value in 0..=255 {
                let longer = [&text[..at], &[value], &text[at..]].concat();
                tally.count(compare_plain(&longer), |_| "read");
                if at < text.len() {
                    let changed = [&text[..at], &[value], &text[at + 1..]].concat();
                    tally.count(compare_plain(&changed), |_| "read");
                }
            }
        }
    }
    tally.must_reach(20_000, 20, &[63, 65, 66], &["read"]);
}

#[test]
fn every_row_space_for_telling_texts() {
    for text in TELLING_TEXTS {
        for row_cells in 0..=61 {
            compare(&set_e().encode(), b"", b"", text.as_bytes(), row_cells);
        }
    }
}

#[test]
fn zeros_of_either_sign_are_one_row() {
    let (zero, minus) = ("s1~0000000000000000", "s1~8000000000000000");
    for (text, rows) in [
        (format!("s0({zero},{minus})"), 2),
        (format!("s0({minus},{zero})"), 2),
        (format!("s0({minus},{minus})"), 2),
        (format!("s0(s0({minus},{zero}),s0({zero},{minus}))"), 3),
        (format!("s0({minus},s2~8000000000000000)"), 3),
        (format!("s0({minus},s1~8000000000000001)"), 3),
        (format!("s0({zero},s1~0000000000000001)"), 3),
        (format!("s0({minus},s1=9223372036854775808)"), 3),
        (format!("s0({zero},s1=0)"), 3),
    ] {
        let read = |rows: usize| compare(&set_e().encode(), b"", b"", text.as_bytes(), ROW_CELLS * rows);
        assert_eq!(read(9), Answer::Value(rows as u64), "{text}");
        assert_eq!(read(rows), Answer::Value(rows as u64), "{text}");
        assert_eq!(read(rows - 1).number(), Some(67), "{text}");
    }
}

#[test]
fn every_text_of_up_to_four_bytes_from_a_small_alphabet() {
    // With these names a single letter is a symbol, so short texts reach far into the grammar.
    let set = set_e().encode();
    let alphabet = b"pab(),=#~0t";
    let mut texts: Vec<Vec<u8>> = vec![Vec::new()];
    for _ in 0..4 {
        let longer = |text: &Vec<u8>| alphabet.map(|byte| [&text[..], &[byte]].concat());
        let grown: Vec<Vec<u8>> = texts.iter().flat_map(longer).collect();
        for text in &grown {
            compare(&set, b"p\na\nb", b"", text, 100);
        }
        texts = grown;
    }
}

#[test]
fn levels_at_their_limit() {
    let read = |set: &reference::Automaton, levels: usize, innermost: &[u8]| {
        let names = check_names(b"", b"", set.arities.len()).expect("empty lists are sound");
        let text = texts::nested(set, &names, 0, levels, innermost);
        compare(&set.encode(), b"", b"", &text, ROW_CELLS * MAX_ROWS)
    };
    for set in [set_e(), set_g()] {
        assert_eq!(read(&set, 255, b"s1").number(), None);
        assert_eq!(read(&set, 256, b"s1").number(), None);
        assert_eq!(read(&set, 257, b"s1"), Answer::Refused { number: 64, place: 768 });
        assert_eq!(read(&set, 257, b"z9"), Answer::Refused { number: 64, place: 768 });
        assert_eq!(read(&set, 257, b"9"), Answer::Refused { number: 63, place: 768 });
        assert_eq!(read(&set, 257, b"(").number(), Some(63));
    }
}

#[test]
fn rows_at_their_limit() {
    let set = set_e();
    let names = check_names(b"", b"", 3).expect("empty lists are sound");
    for (rows, space, expected) in [
        (1023, 1023, None),
        (1023, 1022, Some(67)),
        (1024, 1024, None),
        (1024, 5000, None),
        (1025, 5000, Some(67)),
        (1026, 1026, Some(67)),
    ] {
        let document = documents::broad(&mut Random::new(4), &set, rows).expect("E has leaves");
        assert_eq!(document.rows.len(), rows);
        let text = text_within(&document, &names, 100_000).expect("each row is written about once");
        let answer = compare(&set.encode(), b"", b"", &text, ROW_CELLS * space);
        assert_eq!(answer.number(), expected, "{rows} rows into a space for {space}");
    }
}

#[test]
fn long_texts_are_answered() {
    let million = 1_000_000;
    let siblings = format!("s0({}s1)", "s1,".repeat(million));
    assert_eq!(compare_plain(siblings.as_bytes()), Answer::Refused { number: 66, place: 0 });
    let open = format!("s0({}", "s1,".repeat(million));
    assert_eq!(compare_plain(open.as_bytes()), Answer::Refused { number: 63, place: 3_000_003 });
    let brackets = "s0(".repeat(million);
    assert_eq!(compare_plain(brackets.as_bytes()), Answer::Refused { number: 64, place: 768 });
    let after = format!("s1{}", ")".repeat(million));
    assert_eq!(compare_plain(after.as_bytes()), Answer::Refused { number: 63, place: 2 });
    let digits = format!("s1={}", "1".repeat(million));
    assert_eq!(compare_plain(digits.as_bytes()), Answer::Refused { number: 63, place: 23 });
    let letters = "a".repeat(million);
    assert_eq!(compare_plain(letters.as_bytes()), Answer::Refused { number: 63, place: 16 });
    let pairs = format!("s0({}s1,s1)", "s0(s1,s1),".repeat(100_000));
    assert_eq!(compare_plain(pairs.as_bytes()), Answer::Refused { number: 66, place: 0 });
    let forty_megabytes = format!("s0({}s1,s1)", "s0(s1,s1),".repeat(4 * million));
    assert_eq!(compare_plain(forty_megabytes.as_bytes()), Answer::Refused { number: 66, place: 0 });
}

#[test]
fn lists_at_their_limits() {
    let set = set_e().encode();
    let number = |site: &[u8], built_in: &[u8]| compare(&set, site, built_in, b"s0(s1,s2)", 100).number();
    assert_eq!(number(b"", b""), None);
    assert_eq!(number(&[10; 64], &[10; 64]), None);
    assert_eq!(number(&[10; 65], b""), Some(61));
    assert_eq!(number(b"", &[10; 65]), Some(61));
    assert_eq!(number(&[&[10; 64][..], b"z"].concat(), b""), Some(61));
    assert_eq!(number(&[&[10; 63][..], b"z"].concat(), b""), None);
    assert_eq!(number(b"thisnamehas16byt", b""), Some(65));
    assert_eq!(number(b"thisnamehas17byte", b""), Some(61));
    assert_eq!(number(b"\n\n\nthisnamehas17byte", b""), Some(61));
    assert_eq!(number(b"s1", b""), Some(62));
    assert_eq!(number(b"s1", b"\ns0"), Some(66));
    assert_eq!(number(b"s1", b"A"), Some(61));
}

#[test]
fn lists_with_spaces_and_bytes_13_at_their_limits() {
    let set = set_e().encode();
    let number = |site: &[u8], built_in: &[u8]| compare(&set, site, built_in, b"s0(s1,s2)", 100).number();
    assert_eq!(number(b"p\r\n", b""), Some(65), "symbol 0 is p");
    assert_eq!(number(b"s0\r\n \r\n", b"p \ns1\r \r"), None);
    assert_eq!(number(&[&[10; 63][..], b" "].concat(), b"\r"), None);
    assert_eq!(number(&[&[10; 64][..], b" "].concat(), b""), Some(61));
    assert_eq!(number(b"", &[&[10; 64][..], b"\r"].concat()), Some(61));
    assert_eq!(number(&b"\r\n".repeat(64), b""), None);
    assert_eq!(number(&b"\r\n".repeat(65), b""), Some(61));
    assert_eq!(number(b"thisnamehas16byt \r\n", b""), Some(65));
    assert_eq!(number(b"thisnamehas17byte \r\n", b""), Some(61));
    assert_eq!(number(b"s 0\r\n", b""), Some(61));
    assert_eq!(number(b"s\r0\r\n", b""), Some(61));
    assert_eq!(number(b" s0\r\n", b""), Some(61));
    assert_eq!(number(b"\xef\xbb\xbfs0\r\n", b""), Some(61), "a byte order mark");
    assert_eq!(number(b"s0\t\r\n", b""), Some(61));
    assert_eq!(number(b"p \np\r\n", b""), Some(62));
    assert_eq!(number(b"s1\r\n", b""), Some(62));
    assert_eq!(number(b"s1\r\n", b"\ns0 "), Some(66));
}

#[test]
fn names_of_16_bytes_for_64_symbols() {
    let set = reference::Automaton { arities: vec![0; 64], rules: vec![], ..set_e() }.encode();
    let names: Vec<String> = (0..64).map(|line| format!("abcdefghijklmn{line:02}")).collect();
    let list = names.join("\n");
    let windows = lists::saved_on_windows(list.as_bytes());
    for (symbol, name) in names.iter().enumerate() {
        let mut rows = Lent::of_length(ROW_CELLS);
        let word = read_term(&set, list.as_bytes(), b"", name.as_bytes(), rows.space());
        assert_eq!(Answer::of_library(word), Answer::Value(1));
        assert_eq!(rows.contents()[0], symbol as u16);
        assert_eq!(compare(&set, b"", list.as_bytes(), name.as_bytes(), ROW_CELLS), Answer::Value(1));
        let plain = (list.as_bytes(), &b""[..]);
        let answer = compare_saved(&set, (&windows, b""), plain, name.as_bytes(), ROW_CELLS);
        assert_eq!(answer, Answer::Value(1));
        let same_twice = list.replace(name, &names[(symbol + 1) % 64]);
        assert_eq!(compare(&set, same_twice.as_bytes(), b"", b"s0", 10).number(), Some(62));
    }
}

#[test]
fn every_byte_in_a_list() {
    let set = set_e().encode();
    for byte in 0..=255u8 {
        for list in [vec![byte], vec![b'q', byte], vec![byte, b'q'], vec![b'q', byte, b'r']] {
            compare(&set, &list, b"", b"s0(s1,s2)", 100);
            compare(&set, b"", &list, b"q(s1,s2)", 100);
            compare(&set, b"\nt", &list, b"q(t,s2)", 100);
        }
    }
}

#[test]
fn every_two_bytes_at_the_end_of_a_line() {
    let set = set_e().encode();
    for (first, second) in (0..=255).flat_map(|first| (0..=255).map(move |second| (first, second))) {
        compare(&set, &[b'q', first, second], b"", b"q(s1,s2)", 100);
        compare(&set, b"", &[b'q', first, second, 10], b"q(s1,s2)", 100);
    }
}
