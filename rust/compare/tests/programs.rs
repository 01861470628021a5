//! What the sample program and the judging program print, against the reference.

use std::env;
use std::fs::{self, File};
use std::io::Write;
use std::net::Shutdown;
use std::os::fd::OwnedFd;
use std::os::unix::net::UnixStream;
use std::path::{Path, PathBuf};
use std::process::{Command, Stdio};
use std::thread::sleep;
use std::time::Duration;

use generate::{documents, set_bytes, sets, texts, Random};
use reference::examples::{
    balanced_trees, doubled_lists, lists_of_equal_pairs, rule, set_b, set_d, set_e, set_g, state,
};
use reference::limits::{MAX_PROGRAM_INPUT, MAX_SYMBOLS};
use reference::term_writer::text_within;
use reference::{check_names, judge_program, sample_program, Automaton, Form, Rule};

/// Inputs that each program is run on; starting a program takes about a millisecond.
const INPUTS: u64 = 4000;

/// A program by its name, and what the reference says that it prints.
struct Program {
    name: &'static str,
    reference: fn(&[u8]) -> Vec<u8>,
}

const SAMPLE: Program = Program { name: "sample", reference: sample_program };
const JUDGE: Program = Program { name: "judge", reference: judge_program };

impl Program {
    fn path(&self) -> PathBuf {
        let own = || Path::new(env!("CARGO_MANIFEST_DIR")).join("../../target/bin");
        env::var_os("CIDHOMBA_PROGRAMS_DIR").map_or_else(own, PathBuf::from).join(self.name)
    }

    /// What the program prints for an input that comes in pieces, with a pause between two.
    fn output(&self, pieces: &[&[u8]]) -> Vec<u8> {
        let mut child = Command::new(self.path())
            .stdin(Stdio::piped())
            .stdout(Stdio::piped())
            .spawn()
            .unwrap_or_else(|error| panic!("{} does not start: {error}", self.path().display()));
        let mut stdin = child.stdin.take().expect("stdin is piped");
        for (number, piece) in pieces.iter().enumerate() {
            if number > 0 {
                sleep(Duration::from_millis(5));
            }
            // A program that has seen too much may stop reading, so a failed write says nothing.
            let _ = stdin.write_all(piece);
        }
        drop(stdin);
        let output = child.wait_with_output().expect("the program ends");
        assert!(output.status.success(), "{} ended with {}", self.name, output.status);
        output.stdout
    }

    /// Compares one run of the program, and answers what was printed.
    fn compare(&self, input: &[u8]) -> String {
        self.compare_in_pieces(&[input])
    }

    /// Compares one run of the program on an input that comes in pieces.
    fn compare_in_pieces(&self, pieces: &[&[u8]]) -> String {
        let input = &pieces.concat()[..];
        let (found, expected) = (self.output(pieces), (self.reference)(input));
        if found != expected {
            let hex: String = input.iter().map(|byte| format!("{byte:02x}")).collect();
            let (found, expected) = (found.escape_ascii(), expected.escape_ascii());
            panic!("{}: input {hex}\nprogram: {found}\nreference: {expected}", self.name);
        }
        String::from_utf8(found).expect("programs print ASCII")
    }

    /// What the program prints, and what it tells on standard error, with an input and a redirection by the shell.
    fn redirected(&self, input: Stdio, redirection: &str) -> (String, String) {
        let script = format!("exec \"$0\" {redirection}");
        let output = Command::new("sh").arg("-c").arg(script).arg(self.path()).stdin(input).output();
        let output = output.expect("the shell starts");
        assert!(output.status.success(), "{} {redirection} ended with {}", self.name, output.status);
        let words = |bytes| String::from_utf8(bytes).expect("programs print ASCII");
        (words(output.stdout), words(output.stderr))
    }

    /// The same on a socket that never waits. Where it is left open, the read after these bytes fails; else the
    /// input ends there.
    fn on_a_socket(&self, bytes: &[u8], left_open: bool) -> (String, String) {
        let (mut ours, theirs) = UnixStream::pair().expect("a pair of sockets");
        theirs.set_nonblocking(true).expect("the socket need not wait");
        ours.write_all(bytes).expect("the bytes fit into the socket");
        if !left_open {
            ours.shutdown(Shutdown::Write).expect("the input ends");
        }
        self.redirected(Stdio::from(OwnedFd::from(theirs)), "")
    }

    /// The line on standard error, with nothing printed.
    fn only_tells(&self, what: &str) -> (String, String) {
        (String::new(), format!("{}: {what}\n", self.name))
    }
}

/// What a program tells where a read fails, and where a write does.
const NOT_READ: &str = "the input could not be read to its end";
const NOT_WRITTEN: &str = "the answer could not be written";

/// What a program prints, with nothing told.
fn prints(words: &str) -> (String, String) {
    (words.to_string(), String::new())
}

/// Stops unless each of these beginnings of an output came at least ten times.
fn must_have_seen(outputs: &[String], beginnings: &[&str]) {
    for beginning in beginnings {
        let count = outputs.iter().filter(|output| output.starts_with(beginning)).count();
        assert!(count >= 10, "`{beginning}` came only {count} times");
    }
}

#[test]
fn seeded_sets_for_the_sample_program() {
    let outputs: Vec<String> = (0..INPUTS)
        .map(|seed| {
            let random = &mut Random::new(seed);
            let sizes = sets::any_sizes(random);
            let make = random.pick(&[sets::layered, sets::with_own_tags, sets::automaton]);
            let automaton = make(random, &sizes);
            let automaton = sets::forgetting_perhaps(random, automaton);
            SAMPLE.compare(&set_bytes::stored(random, &automaton, 25))
        })
        .collect();
    let refusals = ["refused 1\n", "refused 2\n", "refused 3\n", "refused 4\n", "refused 5\n"];
    must_have_seen(&outputs, &refusals);
    must_have_seen(
        &outputs,
        &["refused 6\n", "refused 7\n", "refused 9\n", "refused 41\n", "dead\n", "alive 1\n", "alive 2\n"],
    );
}

#[test]
fn seeded_texts_for_the_judging_program() {
    let mut two_zeros_let_in = 0;
    let outputs: Vec<String> = (0..INPUTS)
        .map(|seed| {
            let random = &mut Random::new(seed);
            let (automaton, text) = set_and_text(random);
            let set = set_bytes::stored(random, &automaton, 15);
            let output = JUDGE.compare(&[&set[..], &text].concat());
            two_zeros_let_in += usize::from(has_two_zeros(&text) && output == "yes\n");
            output
        })
        .collect();
    assert!(two_zeros_let_in >= 10, "a text with both zeros was let in only {two_zeros_let_in} times");
    let refusals =
        ["refused 2\n", "refused 3\n", "refused 6\n", "refused 9\n", "refused 31\n", "refused 63 at "];
    must_have_seen(&outputs, &refusals);
    must_have_seen(&outputs, &["refused 64 at ", "refused 65 at ", "refused 66 at ", "yes\n", "no\n"]);
}

/// Whether a text spells a zero with its sign bit set, and one without.
fn has_two_zeros(text: &[u8]) -> bool {
    let spells = |rate: &[u8; 17]| text.windows(17).any(|bytes| bytes == rate);
    spells(b"~0000000000000000") && spells(b"~8000000000000000")
}

/// A set and a text: of loads that are mostly zeros of either sign, of a document grown along the rules, or any.
fn set_and_text(random: &mut Random) -> (Automaton, Vec<u8>) {
    if random.percent(10) {
        let automaton = sets::of_equal_parts(random);
        let text = texts::of_loads(random, &automaton, &plain_names(&automaton));
        return (automaton, text.unwrap_or_default());
    }
    let sizes = random.pick(&[sets::small_sizes, sets::tagged_sizes, sets::many_tags_sizes])();
    let automaton = sets::any_automaton(random, &sizes);
    let names = plain_names(&automaton);
    let text = match documents::grown(random, &automaton, 300) {
        Some(document) if random.percent(40) => text_within(&document, &names, 20_000).unwrap_or_default(),
        _ => texts::text(random, &automaton, &names, 30),
    };
    (automaton, text)
}

/// The names shown for a set's symbols without name lists.
fn plain_names(automaton: &Automaton) -> Vec<Vec<u8>> {
    check_names(b"", b"", automaton.arities.len()).expect("empty lists are sound")
}

/// Judges a text against a set.
fn judge(set: &Automaton, text: &str) -> String {
    JUDGE.compare(&[&set.encode()[..], text.as_bytes()].concat())
}

#[test]
fn the_examples() {
    assert_eq!(SAMPLE.compare(&set_e().encode()), "alive 2\ns0(s1,s1)\n");
    assert_eq!(SAMPLE.compare(&set_d().encode()), "dead\n");
    assert_eq!(SAMPLE.compare(&set_g().encode()), "alive 1\ns1\n");
    assert_eq!(SAMPLE.compare(&set_b().encode()), "alive 2\ns0(s1,s1)\n");
    let both = reference::product(&set_e().encode(), &set_b().encode(), 9999).expect("within the limits");
    assert_eq!(SAMPLE.compare(&both), "refused 41\n");
    let zeros = "s0(s1~0000000000000000,s1~8000000000000000)";
    for (text, expected) in [("s0(s1=1,s1=2)", "no\n"), ("s0(s1,s1)", "yes\n"), (zeros, "yes\n")] {
        assert_eq!(JUDGE.compare(&[&both[..], text.as_bytes()].concat()), expected);
    }
    for (set, text, expected) in [
        (set_e(), "s0(s1=7,s1=7)", "yes\n"),
        (set_e(), "s0(s1=7,s1=8)", "no\n"),
        (set_e(), "s0(s1,s2)", "no\n"),
        (set_e(), "s1", "no\n"),
        (set_g(), "s0(s0(s1))", "yes\n"),
        (set_g(), "s0(s0(s0(s0(s1))))", "no\n"),
        (set_b(), "s0(s1,s1)", "yes\n"),
        (set_d(), "s0(s1,s1)", "no\n"),
        (set_e(), zeros, "yes\n"),
        (set_e(), "s0(s1~8000000000000000,s1~8000000000000000)", "yes\n"),
        (set_e(), "s0(s1~8000000000000000,s1~8000000000000001)", "no\n"),
        (set_e(), "s0(s1~0000000000000000,s1~0000000000000001)", "no\n"),
        (set_e(), "s0(s1~7ff8000000000000,s1~fff8000000000000)", "no\n"),
        (set_e(), "s0(s1~8000000000000000,s1=0)", "no\n"),
        (set_e(), "s0(s1~8000000000000000,s1=9223372036854775808)", "no\n"),
    ] {
        assert_eq!(judge(&set, text), expected, "{text}");
    }
}

/// Sets with rules of 14 bytes: those of source document 000, and E as it is and with a tag to forget that it lacks.
#[test]
fn sets_that_forget() {
    let pairs = lists_of_equal_pairs();
    assert_eq!(SAMPLE.compare(&pairs.encode()), "alive 1\ns2\n");
    assert_eq!(SAMPLE.compare(&balanced_trees().encode()), "alive 1\ns1\n");
    for (set, text, expected) in [
        (&pairs, "s1(s0(s3=1,s3=1),s1(s0(s3=2,s3=2),s2))", "yes\n"),
        (&pairs, "s1(s0(s3=1,s3=1),s1(s0(s3=2,s3=3),s2))", "no\n"),
        (&doubled_lists(), "s1(s3=1,s1(s3=1,s1(s3=2,s1(s3=2,s2))))", "yes\n"),
        (&doubled_lists(), "s1(s3=1,s1(s3=1,s1(s3=2,s2)))", "no\n"),
        (&balanced_trees(), "s0(s0(s1,s1),s0(s1,s1))", "yes\n"),
        (&balanced_trees(), "s0(s0(s1,s1),s1)", "no\n"),
    ] {
        assert_eq!(judge(set, text), expected, "{text}");
    }
    let mut e = set_e().encode_in(Form::Isolating);
    assert_eq!(SAMPLE.compare(&e), "alive 2\ns0(s1,s1)\n");
    assert_eq!(JUDGE.compare(&[&e[..], b"s0(s1=7,s1=7)"].concat()), "yes\n");
    let last_mask = e.len() - 2;
    e[last_mask] = 2;
    assert_eq!(SAMPLE.compare(&e), "refused 9\n");
    assert_eq!(JUDGE.compare(&[&e[..], b"s0(s1=7,s1=7)"].concat()), "refused 9\n");
}

/// The texts of the settled readings, with the places of their faults.
#[test]
fn texts_with_places() {
    let letters = "a".repeat(17);
    for (text, expected) in [
        ("", "refused 63 at 0"),
        ("s1 ", "refused 63 at 2"),
        ("s1\n", "refused 63 at 2"),
        ("s9(", "refused 65 at 0"),
        ("s0(s1,s1", "refused 63 at 8"),
        ("s0(s1,s1))", "refused 63 at 9"),
        ("s0()", "refused 63 at 3"),
        ("s0(s1)x", "refused 66 at 0"),
        ("s0(s1,s2,s1,s1,s1,s1)", "refused 66 at 0"),
        ("s0=1x", "refused 66 at 0"),
        ("s1(s1)", "refused 66 at 0"),
        ("s0(s1,s3)", "refused 65 at 6"),
        ("s0(s1,s0(s1))", "refused 66 at 6"),
        ("s1=00", "refused 63 at 4"),
        ("s1=18446744073709551615", "no"),
        ("s1=18446744073709551616", "refused 63 at 22"),
        ("s1=tru", "refused 63 at 6"),
        ("s1=truex", "refused 63 at 7"),
        ("s1#4294967296", "refused 63 at 12"),
        ("s1~0123456789abcdeF", "refused 63 at 18"),
        ("s1~0123456789abcdef0", "refused 63 at 19"),
        (&letters[1..], "refused 65 at 0"),
        (&letters, "refused 63 at 16"),
    ] {
        assert_eq!(judge(&set_e(), text), format!("{expected}\n"), "{text}");
    }
    for (levels, innermost, expected) in
        [(256, "s1", "no\n"), (257, "s1", "refused 64 at 768\n"), (257, "9", "refused 63 at 768\n")]
    {
        let text = texts::nested(&set_g(), &plain_names(&set_g()), 0, levels, innermost.as_bytes());
        assert_eq!(JUDGE.compare(&[set_g().encode(), text].concat()), expected, "{levels} levels");
    }
}

#[test]
fn the_bad_evening() {
    let directory = Path::new(env!("CARGO_MANIFEST_DIR")).join("../../examples");
    let example = |name: &str| fs::read(directory.join(name)).expect("the file is there");
    let judged = |text: &str| JUDGE.compare(&[example("agreed.set"), example(text)].concat());
    assert_eq!(judged("export.term"), "yes\n");
    assert_eq!(judged("export-queue.term"), "no\n");
    assert_eq!(judged("export-swapped.term"), "no\n");
    assert!(SAMPLE.compare(&example("agreed.set")).starts_with("alive 7\n"));
    assert_eq!(SAMPLE.compare(&example("dead.set")), "dead\n");
}

#[test]
fn sets_at_the_limits() {
    for (symbols, expected) in [(MAX_SYMBOLS, "alive 1\ns63\n"), (MAX_SYMBOLS + 1, "refused 2\n")] {
        let set = Automaton {
            arities: vec![0; symbols],
            states: vec![state(true, 0)],
            tag_count: 0,
            rules: vec![rule(63, &[], 0)],
        };
        assert_eq!(SAMPLE.compare(&set.encode()), expected, "{symbols} symbols");
        let expected = if symbols > MAX_SYMBOLS { expected } else { "yes\n" };
        assert_eq!(judge(&set, "s63"), expected, "{symbols} symbols");
    }
    let short = &set_e().encode()[..58];
    assert_eq!(SAMPLE.compare(short), "refused 3\n");
    assert_eq!(JUDGE.compare(short), "refused 3\n");
    for sizes in [sets::largest_narrow_sizes(), sets::largest_sizes()] {
        let largest = sets::automaton(&mut Random::new(5), &sizes);
        SAMPLE.compare(&largest.encode());
        SAMPLE.compare(&largest.encode_in(Form::Isolating));
        judge(&largest, "s0");
        JUDGE.compare(&[&largest.encode_in(Form::Isolating)[..], b"s0"].concat());
    }
}

/// A set that lets in one tree only, whose text has so many bytes: doubled as long as it fits, then filled up.
fn set_with_a_sample_of(length: usize) -> Automaton {
    let (pair, around) = (0, 1);
    let mut rules: Vec<Rule> = vec![rule(2, &[], 0)];
    // The text of state n is that of two of state n - 1 in a pair: 7 * 2^n - 5 bytes.
    let doubled = |state: usize| (7 << state) - 5;
    let mut top = 0;
    while doubled(top + 1) <= length {
        rules.push(rule(pair, &[top, top], top + 1));
        top += 1;
    }
    let (mut last, mut missing) = (top, length - doubled(top));
    let mut add = |child: Option<usize>| {
        rules.push(match child {
            Some(small) => rule(pair, &[last, small], last + 1),
            None => rule(around, &[last], last + 1),
        });
        last += 1;
    };
    // A pair with state n adds 7 * 2^n bytes, and `around` adds 4.
    while missing % 7 != 0 {
        add(None);
        missing -= 4;
    }
    for small in (0..top).rev() {
        while missing >= 7 << small {
            add(Some(small));
            missing -= 7 << small;
        }
    }
    rules.sort();
    let states = (0..=last).map(|number| state(number == last, 0)).collect();
    Automaton { arities: vec![2, 1, 0], states, tag_count: 0, rules }
}

#[test]
fn samples_at_the_longest_text_and_past_it() {
    for length in [1000, 32_766, 32_767, 32_768] {
        let printed = SAMPLE.compare(&set_with_a_sample_of(length).encode());
        assert_eq!(printed.lines().nth(1).map(str::len), Some(length));
    }
    for length in [32_769, 32_770, 65_536, 65_537, 1 << 20, 1 << 33] {
        assert_eq!(SAMPLE.compare(&set_with_a_sample_of(length).encode()), "refused 68\n");
    }
}

#[test]
fn samples_of_256_levels() {
    let over_all = |arity: usize, expected: &str| {
        let mut rules: Vec<Rule> = (0..255).map(|below| rule(0, &vec![below; arity], below + 1)).collect();
        rules.push(rule(1, &[], 0));
        let states = (0..256).map(|number| state(number == 255, 0)).collect();
        let set = Automaton { arities: vec![arity as u8, 0], states, tag_count: 0, rules };
        let printed = SAMPLE.compare(&set.encode());
        assert!(printed.starts_with(expected), "{printed}");
    };
    over_all(1, "alive 256\ns0(s0(s0(");
    over_all(2, "refused 68\n");
    over_all(4, "refused 68\n");
}

/// A set in which every row has one annotation.
#[test]
fn annotations_that_fill_the_room_and_one_more() {
    let set = Automaton {
        arities: vec![1, 4, 0],
        states: vec![state(true, 0)],
        tag_count: 0,
        rules: vec![rule(0, &[0], 0), rule(1, &[0, 0, 0, 0], 0), rule(2, &[], 0)],
    };
    for (rows, expected) in [(511, "yes\n"), (512, "yes\n"), (513, "refused 31\n")] {
        let document = documents::broad(&mut Random::new(1), &set, rows).expect("there are leaves");
        assert_eq!(document.rows.len(), rows);
        let text = text_within(&document, &plain_names(&set), 30_000).expect("short enough");
        assert_eq!(JUDGE.compare(&[set.encode(), text].concat()), expected, "{rows} rows");
    }
}

#[test]
fn inputs_that_come_in_pieces() {
    let set = set_e().encode();
    for cut in [1, 15, 16, 58] {
        assert_eq!(SAMPLE.compare_in_pieces(&[&set[..cut], &set[cut..]]), "alive 2\ns0(s1,s1)\n");
    }
    let pieces: [&[u8]; 5] = [&set[..20], &set[20..], b"s0(s1", b"=7,s1", b"=7)"];
    assert_eq!(JUDGE.compare_in_pieces(&pieces), "yes\n");
    let filled = vec![b'0'; MAX_PROGRAM_INPUT - set.len()];
    assert_eq!(JUDGE.compare_in_pieces(&[&set, &filled]), "refused 63 at 0\n");
    assert_eq!(JUDGE.compare_in_pieces(&[&set, &filled, b"0"]), "refused 69\n");
}

#[test]
fn every_length_of_an_input() {
    let input = [&set_e().encode()[..], b"s0(s1=7,s1=7)"].concat();
    for length in 0..=input.len() {
        JUDGE.compare(&input[..length]);
        SAMPLE.compare(&input[..length]);
    }
}

#[test]
fn every_total_that_a_header_may_state() {
    let input = [&set_e().encode()[..], b"s0(s1=7,s1=7)"].concat();
    for total in (0..80).chain([255, 256, 257, 32_768, 65_535]) {
        let mut changed = input.clone();
        changed[14..16].copy_from_slice(&u16::to_le_bytes(total));
        JUDGE.compare(&changed);
    }
}

#[test]
fn inputs_at_the_longest() {
    for length in [MAX_PROGRAM_INPUT - 1, MAX_PROGRAM_INPUT, MAX_PROGRAM_INPUT + 1, 2 * MAX_PROGRAM_INPUT] {
        let expected = if length > MAX_PROGRAM_INPUT { "refused 69\n" } else { "refused 2\n" };
        assert_eq!(SAMPLE.compare(&vec![0; length]), expected);
        let mut input = [&set_e().encode()[..], b"s1="].concat();
        input.resize(length, b'7');
        let expected = if length > MAX_PROGRAM_INPUT { "refused 69\n" } else { "refused 63 at 22\n" };
        assert_eq!(JUDGE.compare(&input), expected);
    }
}

/// Of 1,024 rows 512 are leaves, each with one annotation in E, and no pair of two of them has any:
/// the room of 512 is just enough. The row past the 1,024th is that of the whole text.
#[test]
fn a_document_of_1024_rows_and_one_of_1025() {
    let set = set_e();
    let names = plain_names(&set);
    for (rows, expected) in [(1024, "no\n"), (1025, "refused 67 at 0\n")] {
        let mut document = documents::broad(&mut Random::new(1), &set, rows).expect("E has leaves");
        // Short scalars, so that the text fits into a program's input.
        for (number, row) in document.rows.iter_mut().enumerate().filter(|(_, row)| row.children.is_empty()) {
            row.scalar = reference::Scalar::Name(number as u32);
        }
        let text = text_within(&document, &names, 30_000).expect("short enough");
        let printed = JUDGE.compare(&[set.encode(), text].concat());
        assert_eq!(printed, expected, "{rows} rows");
    }
}

/// `s1` is a whole document, and the front of a text that is none: taken for all, it would be let in.
#[test]
fn a_read_that_fails_is_not_the_end_of_a_text() {
    let (set, text) = (set_g().encode(), b"s1(s1)");
    let front = [&set[..], &text[..2]].concat();
    assert_eq!(JUDGE.on_a_socket(&front, true), JUDGE.only_tells(NOT_READ));
    assert_eq!(JUDGE.on_a_socket(&front, false), prints("yes\n"));
    let whole = [&set[..], text].concat();
    assert_eq!(JUDGE.on_a_socket(&whole, true), JUDGE.only_tells(NOT_READ));
    assert_eq!(JUDGE.on_a_socket(&whole, false), prints("refused 66 at 0\n"));
}

#[test]
fn a_read_that_fails_is_not_the_end_of_a_set() {
    let set = set_g().encode();
    assert_eq!(SAMPLE.on_a_socket(&set, true), SAMPLE.only_tells(NOT_READ));
    assert_eq!(SAMPLE.on_a_socket(&set, false), prints("alive 1\ns1\n"));
    let front = &set[..set.len() - 1];
    assert_eq!(SAMPLE.on_a_socket(front, true), SAMPLE.only_tells(NOT_READ));
    assert_eq!(SAMPLE.on_a_socket(front, false), prints("refused 3\n"));
}

/// The byte past the longest input is the last that a program asks for: what stands behind it is not read.
#[test]
fn a_read_that_fails_at_once_and_at_the_longest_input() {
    for program in [SAMPLE, JUDGE] {
        assert_eq!(program.on_a_socket(b"", true), program.only_tells(NOT_READ));
        assert_eq!(program.on_a_socket(b"", false), prints("refused 1\n"));
        let longest = vec![0; MAX_PROGRAM_INPUT + 1];
        let input = &longest[..MAX_PROGRAM_INPUT];
        assert_eq!(program.on_a_socket(input, true), program.only_tells(NOT_READ));
        assert_eq!(program.on_a_socket(&longest, true), prints("refused 69\n"));
    }
}

#[test]
fn an_input_that_cannot_be_read() {
    for program in [SAMPLE, JUDGE] {
        let directory = File::open(env!("CARGO_MANIFEST_DIR")).expect("the directory is there");
        assert_eq!(program.redirected(directory.into(), ""), program.only_tells(NOT_READ));
        assert_eq!(program.redirected(Stdio::null(), "<&-"), program.only_tells(NOT_READ));
        assert_eq!(program.redirected(Stdio::null(), ""), prints("refused 1\n"));
    }
}

#[test]
fn an_answer_that_cannot_be_written() {
    for program in [SAMPLE, JUDGE] {
        for redirection in [">&-", ">/dev/full"] {
            let found = program.redirected(Stdio::null(), redirection);
            assert_eq!(found, program.only_tells(NOT_WRITTEN), "{redirection}");
        }
    }
}
