//! A set in the narrow form, the same with its states widened (document 02, Wish 2), and that with its rules widened
//! (Wish 10): every function of the library gives the same answer for all three and leaves the same in its spaces, and
//! the moves back give the first one again.

use cidhomba::{interface, MAX_SET_BYTES};
use compare::answer::Answer;
use compare::calls::{
    check_document, check_run, membership, read_term, widen_rules, widen_states, write_term, written,
};
use compare::lent::Lent;
use compare::tally::{Tally, RUN, TABLE, TEXT};
use generate::example_files::file;
use generate::{documents, pairs, rows, runs, sets, texts, Random};
use reference::examples::{set_b, set_d, set_e, set_g};
use reference::limits::{ANNOTATION_CELLS, MAX_NARROW_TAGS, MAX_ROWS, ROW_CELLS, STEP_CELLS};
use reference::{check_names, Automaton, Form};

/// Bytes that hold every set.
const SET_SPACE: usize = MAX_SET_BYTES;
/// Annotations for which there is room, and steps in the run space.
const ROOM: usize = 300;

/// A set that forgets nothing in all forms; the second and the third are the library's own work.
struct Forms {
    narrow: Vec<u8>,
    wide: Vec<u8>,
    isolating: Vec<u8>,
}

impl Forms {
    fn of(narrow: Vec<u8>) -> Forms {
        widen_states(&narrow, SET_SPACE);
        let wide = written(|out| interface::widen_states(&narrow, out));
        widen_rules(&wide, SET_SPACE);
        let isolating = written(|out| interface::widen_rules(&wide, out));
        let back = written(|out| interface::narrow_rules(&isolating, out));
        let back = written(|out| interface::narrow_states(&back, out));
        assert_eq!(back, narrow, "there and back");
        for set in [&narrow, &wide, &isolating] {
            assert_eq!(interface::check_automaton(set), 0);
        }
        Forms { narrow, wide, isolating }
    }

    fn of_set(set: &Automaton) -> Forms {
        Forms::of(set.encode_in(Form::Narrow))
    }

    /// What a call answers for any form, which must be the same.
    fn alike<T: PartialEq + std::fmt::Debug>(&self, call: impl Fn(&[u8]) -> T) -> T {
        let by_short_rules = self.alike_in_the_first_two(&call);
        assert_eq!(by_short_rules, call(&self.isolating), "narrow {:?}", self.narrow);
        by_short_rules
    }

    /// What a call answers for either form with rules of 12 bytes, which must be the same.
    fn alike_in_the_first_two<T: PartialEq + std::fmt::Debug>(&self, call: impl Fn(&[u8]) -> T) -> T {
        let (by_narrow, by_wide) = (call(&self.narrow), call(&self.wide));
        assert_eq!(by_narrow, by_wide, "narrow {:?}", self.narrow);
        by_narrow
    }

    fn all(&self) -> impl Iterator<Item = &[u8]> {
        [&self.narrow, &self.wide, &self.isolating].into_iter().map(|set| &set[..])
    }

    /// Whether the set has rules, without which the two wide forms are the same bytes.
    fn has_rules(&self) -> bool {
        self.isolating != self.wide
    }

    /// The rows of a sound text.
    fn rows_of(&self, text: &[u8]) -> Vec<u16> {
        let (answer, mut rows) = self.alike(|set| read(set, text, ROW_CELLS * MAX_ROWS));
        let Answer::Value(count) = answer else { panic!("a sound text: {}", text.escape_ascii()) };
        rows.truncate(ROW_CELLS * count as usize);
        rows
    }
}

/// The answer to a judging, with what it leaves in both spaces.
fn judged(set: &[u8], rows: &[u16], room: usize) -> (Answer, Vec<u16>, Vec<u16>) {
    let (mut work, mut run) = (Lent::of_length(ANNOTATION_CELLS * room), Lent::of_length(STEP_CELLS * room));
    let word = interface::membership(set, rows, work.space(), run.space());
    (Answer::of_library(word), work.contents().to_vec(), run.contents().to_vec())
}

/// The answer to the question for a lowest document, with the rows.
fn sampled(set: &[u8], row_cells: usize) -> (Answer, Vec<u16>) {
    let mut rows = Lent::of_length(row_cells);
    (Answer::of_library(interface::witness(set, rows.space())), rows.contents().to_vec())
}

/// A table as text, and a text as rows, without name lists.
fn spelled(set: &[u8], rows: &[u16]) -> (Answer, Vec<u8>) {
    let mut text = Lent::of_length(2000);
    (Answer::of_library(interface::write_term(set, b"", b"", rows, text.space())), text.contents().to_vec())
}

fn read(set: &[u8], text: &[u8], row_cells: usize) -> (Answer, Vec<u16>) {
    let mut rows = Lent::of_length(row_cells);
    (Answer::of_library(interface::read_term(set, b"", b"", text, rows.space())), rows.contents().to_vec())
}

fn kind(value: u64) -> &'static str {
    if value == 0 {
        "0"
    } else {
        "more"
    }
}

#[test]
fn tables_and_runs_are_checked_alike() {
    let (mut tables, mut checked) =
        (Tally::of("check_document in all forms"), Tally::of("check_run in all forms"));
    for seed in 0..12_000 {
        let random = &mut Random::new(seed);
        let set = sets::automaton(random, &sets::tagged_sizes());
        let forms = Forms::of_set(&set);
        let most = random.pick(&[2, 5, 12]);
        let table = rows::lent(random, &set, most, 60);
        tables.count(forms.alike(|set| check_document(set, &table)), |_| "sound");
        let Some(document) = documents::document(random, &set, most) else { continue };
        let run = runs::lent(random, &set, &document, 50);
        let table = document.cells();
        checked.count(forms.alike(|set| check_run(set, &table, &run)), |_| "passes");
    }
    tables.must_reach(5000, 100, &TABLE, &["sound"]);
    checked.must_reach(5000, 100, &RUN, &["passes"]);
}

#[test]
fn documents_are_judged_alike_with_the_same_run() {
    let mut tally = Tally::of("membership in all forms");
    for seed in 0..12_000 {
        let random = &mut Random::new(seed);
        let set = sets::automaton(random, &sets::tagged_sizes());
        let document = match random.below(3) {
            0 => documents::document(random, &set, 20),
            _ => documents::grown(random, &set, 40),
        };
        let Some(document) = document else { continue };
        let (forms, table) = (Forms::of_set(&set), document.cells());
        let room = random.pick(&[ROOM, ROOM, 8]);
        let (answer, _, _) = forms.alike(|set| judged(set, &table, room));
        membership(&forms.wide, &table, ANNOTATION_CELLS * room, STEP_CELLS * room);
        tally.count(answer, kind);
    }
    tally.must_reach(3000, 200, &[31], &["0", "more"]);
}

#[test]
fn lowest_documents_are_alike() {
    let mut tally = Tally::of("witness in all forms");
    for seed in 0..4000 {
        let random = &mut Random::new(seed);
        let sizes = random.pick(&[sets::tagged_sizes, sets::medium_sizes, sets::largest_narrow_sizes])();
        let make = random.pick(&[sets::layered, sets::with_own_tags, sets::automaton]);
        let set = make(random, &sizes);
        let row_cells = ROW_CELLS * set.states.len() - usize::from(random.percent(10));
        tally.count(Forms::of_set(&set).alike(|set| sampled(set, row_cells)).0, kind);
    }
    tally.must_reach(4000, 200, &[41, 42], &["0", "more"]);
}

#[test]
fn texts_are_read_and_written_alike() {
    let (mut reading, mut writing) =
        (Tally::of("read_term in all forms"), Tally::of("write_term in all forms"));
    for seed in 0..8000 {
        let random = &mut Random::new(seed);
        let set = sets::automaton(random, &sets::small_sizes());
        let names = check_names(b"", b"", set.arities.len()).expect("empty lists are sound");
        let forms = Forms::of_set(&set);
        let text = texts::text(random, &set, &names, 60);
        let row_cells = ROW_CELLS * random.pick(&[3, MAX_ROWS, MAX_ROWS]);
        reading.count(forms.alike(|set| read(set, &text, row_cells)).0, |_| "read");
        read_term(&forms.wide, b"", b"", &text, row_cells);
        let table = rows::lent(random, &set, 30, 40);
        writing.count(forms.alike(|set| spelled(set, &table)).0, |_| "written");
        write_term(&forms.wide, b"", b"", &table, 2000);
    }
    reading.must_reach(8000, 100, &TEXT, &["read"]);
    writing.must_reach(8000, 50, &[&TABLE[..], &[68]].concat(), &["written"]);
}

/// An operation of two sets, with the bytes that it leaves in a space.
type Operation = fn(&[u8], &[u8], &mut [u8]) -> u64;

fn joined(operation: Operation, first: &[u8], second: &[u8], space: usize) -> (Answer, Vec<u8>) {
    let mut out = Lent::of_length(space);
    (Answer::of_library(operation(first, second, out.space())), out.contents().to_vec())
}

/// Where either of two sets has rules of 14 bytes, the result has them too; it is the same set with its rules widened.
fn has_long_rules_with_either(operation: Operation, first: &Forms, second: &Forms, result: &[u8]) {
    let expected = written(|out| interface::widen_rules(result, out));
    let same = |one: &[u8], other: &[u8]| assert_eq!(written(|out| operation(one, other, out)), expected);
    if first.has_rules() {
        second.all().for_each(|other| same(&first.isolating, other));
    }
    if second.has_rules() {
        first.all().for_each(|one| same(one, &second.isolating));
    }
}

/// The same bytes, in the wide form, for any of the two sets in either form with rules of 12 bytes.
#[test]
fn unions_and_products_are_the_same_bytes() {
    let mut tally = Tally::of("union and product in all forms");
    for seed in 0..4000 {
        let random = &mut Random::new(seed);
        let (first, second) = pairs::pair(random);
        if first.tag_count.max(second.tag_count) > MAX_NARROW_TAGS {
            continue;
        }
        let (first, second) = (Forms::of_set(&first), Forms::of_set(&second));
        let space = random.pick(&[SET_SPACE, SET_SPACE, 200]);
        for operation in [interface::union, interface::product] {
            let with_first =
                |one: &[u8]| second.alike_in_the_first_two(|other| joined(operation, one, other, space));
            let (answer, out) = first.alike_in_the_first_two(with_first);
            if let Answer::Value(length) = answer {
                let result = &out[..length as usize];
                assert_eq!(interface::check_automaton(result), 0, "seed {seed}");
                let again = interface::widen_states(result, &mut vec![0; SET_SPACE]);
                assert_eq!(Answer::of_library(again).number(), Some(18), "seed {seed}: it is wide already");
                has_long_rules_with_either(operation, &first, &second, result);
            }
            tally.count(answer, |_| "written");
        }
    }
    tally.must_reach(4000, 100, &[51, 52, 53], &["written"]);
}

/// Document 01, "Examples, with the edges", the starred ones, with what each set answers.
#[test]
fn the_examples_of_the_document() {
    let both = written(|out| interface::product(&set_e().encode(), &set_b().encode(), out));
    let both = written(|out| interface::narrow_states(&both, out));
    let [e, g, d, b] = [set_e(), set_g(), set_d(), set_b()].map(|set| Forms::of_set(&set));
    let both = Forms::of(both);
    for (set, text, steps) in [
        (&e, "s0(s1=7,s1=7)", 2),
        (&e, "s0(s1=7,s1=8)", 0),
        (&e, "s0(s1,s2)", 0),
        (&e, "s1", 0),
        (&g, "s0(s0(s1))", 3),
        (&g, "s0(s0(s0(s0(s1))))", 0),
        (&b, "s0(s1,s1)", 3),
        (&d, "s0(s1,s1)", 0),
        (&both, "s0(s1=1,s1=2)", 0),
        (&both, "s0(s1,s1)", 3),
    ] {
        let rows = set.rows_of(text.as_bytes());
        assert_eq!(set.alike(|set| judged(set, &rows, 9)).0, Answer::Value(steps), "{text}");
        assert_eq!(set.alike(|set| spelled(set, &rows)).0, Answer::Value(text.len() as u64), "{text}");
    }
    let rows = e.rows_of(b"s0(s1=7,s1=7)");
    assert_eq!(rows.len(), 2 * ROW_CELLS);
    assert_eq!(e.alike(|set| judged(set, &rows, 1)).0.number(), Some(31));
    assert_eq!(e.alike(|set| sampled(set, 20)).0, Answer::Value(2 + 65_536 * 2));
    assert_eq!(d.alike(|set| sampled(set, 20)).0, Answer::Value(0));
    assert_eq!(both.alike(|set| sampled(set, 60)).0.number(), Some(41));
}

/// The sets of `examples/`, with the exports there.
#[test]
fn the_files_of_the_examples() {
    let (agreed, dead) = (Forms::of(file("agreed.set")), Forms::of(file("dead.set")));
    for (name, is_let_in) in
        [("export.term", true), ("export-queue.term", false), ("export-swapped.term", false)]
    {
        let rows = agreed.rows_of(&file(name));
        let (answer, _, _) = agreed.alike(|set| judged(set, &rows, ROOM));
        assert_eq!(answer != Answer::Value(0), is_let_in, "{name}");
        assert_eq!(dead.alike(|set| judged(set, &rows, ROOM)).0, Answer::Value(0), "{name}");
    }
    assert!(matches!(agreed.alike(|set| sampled(set, 340)).0, Answer::Value(1..)));
    assert_eq!(dead.alike(|set| sampled(set, 340)).0, Answer::Value(0));
    let evening = Forms::of(file("json/evening.set"));
    for (name, is_let_in) in [("evening", true), ("evening-queue", false), ("evening-swapped", false)] {
        let text = file(&format!("json/{name}.json"));
        let table = reference::read_json(&file("json/evening.keys"), &text, ROW_CELLS * MAX_ROWS);
        let rows = table.expect("an export is read").cells();
        let (answer, _, _) = evening.alike(|set| judged(set, &rows, 1000));
        assert_eq!(answer != Answer::Value(0), is_let_in, "{name}");
    }
}
