//! The deepest and the largest inputs on a thread with little stack: depth goes by levels, states and children,
//! never by length. The thread holds the call alone; what a test allocates and compares stays outside of it.

use std::thread;

use cidhomba::*;
use generate::paired_list::{paired_list, paired_list_set};
use generate::runs::unfolded;
use generate::wide_export::{wide_export, wide_set};
use generate::{documents, Random};
use reference::examples::{rule, set_g, state};
use reference::membership::judge;
use reference::run::run_cells;
use reference::{Automaton, Form, Rule};

/// Bytes of stack that serve every call but one, the scratch of the functions included.
const STACK: usize = 128 * 1024;
/// Bytes of stack that serve reading JSON.
const JSON_STACK: usize = 256 * 1024;
/// Most levels of a document.
const LEVELS: usize = 256;
/// Rows of a text of so many levels with three leaves beside each nested term, no two alike.
const NESTED_ROWS: usize = 4 * (LEVELS - 1) + 1;

/// Calls on a thread with so much stack; an overflow ends the whole process.
fn with_stack<T: Send>(bytes: usize, call: impl FnOnce() -> T + Send) -> T {
    thread::scope(|scope| {
        let thread = thread::Builder::new().stack_size(bytes).spawn_scoped(scope, call);
        thread.expect("a thread starts").join().expect("the call comes back")
    })
}

fn with_little_stack<T: Send>(call: impl FnOnce() -> T + Send) -> T {
    with_stack(STACK, call)
}

/// The last symbol, a leaf.
const LEAF: usize = 63;

/// A set that lets in everything: symbol 0 with four children, 63 leaves, and so many states for each tree.
fn lenient(states: usize) -> Automaton {
    let mut arities = vec![0; LEAF + 1];
    arities[0] = 4;
    let over = |symbol: usize| if symbol == 0 { vec![0; 4] } else { vec![] };
    let to_each = |symbol: usize| (0..states).map(move |target| rule(symbol, &over(symbol), target));
    let rules = (0..=LEAF).flat_map(to_each).collect();
    Automaton { arities, states: vec![state(true, 0); states], tag_count: 0, rules }
}

/// How the symbols are shown, and the lists that say so.
struct Spelling {
    site: Vec<u8>,
    built_in: Vec<u8>,
    inner: String,
    leaf: String,
}

impl Spelling {
    /// Without lists.
    fn plain() -> Spelling {
        let (inner, leaf) = ("s0".to_string(), format!("s{LEAF}"));
        Spelling { site: Vec::new(), built_in: Vec::new(), inner, leaf }
    }

    /// With two lists of 64 names, each of 16 bytes.
    fn listed() -> Spelling {
        let name = |first: char, symbol: usize| format!("{first}{symbol:015}");
        let list = |first: char| (0..=LEAF).map(|symbol| name(first, symbol) + "\n").collect::<String>();
        let (site, built_in) = (list('n').into_bytes(), list('m').into_bytes());
        Spelling { site, built_in, inner: name('n', 0), leaf: name('n', LEAF) }
    }

    fn names(&self) -> Names<'_> {
        Names { site: &self.site, built_in: &self.built_in }
    }

    /// Three leaves and the next level, again and again down to something on the deepest level; with its place.
    fn nested(&self, innermost: &str) -> (Vec<u8>, u64) {
        let Spelling { inner, leaf, .. } = self;
        let opened = |level: usize| format!("{inner}({leaf}={level},{leaf}#{level},{leaf}~{level:016x},");
        let front: String = (1..LEVELS).map(opened).collect();
        let place = front.len() as u64;
        ((front + innermost + &")".repeat(LEVELS - 1)).into_bytes(), place)
    }
}

#[test]
fn each_scalar_on_the_deepest_level_is_read_and_written() {
    let set = lenient(1).encode();
    for spelling in [Spelling::plain(), Spelling::listed()] {
        for scalar in ["", "=true", "=18446744073709551615", "~ffffffffffffffff", "#4294967295"] {
            let (text, _) = spelling.nested(&format!("{}{scalar}", spelling.leaf));
            let mut space = vec![0; ROW_CELLS * MAX_ROWS];
            let rows = with_little_stack(|| read_term(&set, spelling.names(), &text, &mut space));
            let rows = rows.expect("256 levels are read");
            assert_eq!(rows.len(), ROW_CELLS * NESTED_ROWS);
            let mut written = vec![0; text.len()];
            let written = with_little_stack(|| write_term(&set, spelling.names(), rows, &mut written));
            assert_eq!(written, Ok(&text[..]));
        }
    }
}

#[test]
fn each_fault_on_the_deepest_level_is_told() {
    let set = lenient(1).encode();
    for spelling in [Spelling::plain(), Spelling::listed()] {
        let Spelling { inner, leaf, .. } = &spelling;
        let (too_large, too_deep) = (format!("{leaf}=18446744073709551616"), format!("{inner}({leaf}"));
        // The last digit is one too many; the leaves beside fill all rows but those that are not lent.
        for (innermost, reason, behind, rows) in [
            ("?", Reason::TextFault, 0, MAX_ROWS),
            (&too_large, Reason::TextFault, too_large.len() - 1, MAX_ROWS),
            (&too_deep, Reason::TextLevel, inner.len() + 1, MAX_ROWS),
            ("zzzzzzzzzzzzzzzz", Reason::NameUnknown, 0, MAX_ROWS),
            (inner, Reason::TermChildren, 0, MAX_ROWS),
            (leaf, Reason::TextRows, 0, 3 * (LEVELS - 1)),
        ] {
            let (text, place) = spelling.nested(innermost);
            let mut space = vec![0; ROW_CELLS * rows];
            let answer = with_little_stack(|| read_term(&set, spelling.names(), &text, &mut space));
            let place = Some(place + behind as u64);
            assert_eq!(answer, Err(Refusal { reason, place }), "{innermost}");
        }
    }
}

#[test]
fn a_text_of_a_million_siblings_is_refused() {
    let set = set_g().encode();
    let text = [b"s0(".to_vec(), b"s1,".repeat(1_000_000), b"s1)".to_vec()].concat();
    let mut space = vec![0; ROW_CELLS * MAX_ROWS];
    let answer = with_little_stack(|| read_term(&set, Names::default(), &text, &mut space));
    assert_eq!(answer, Err(Refusal { reason: Reason::TermChildren, place: Some(0) }));
}

#[test]
fn a_list_with_a_million_spaces_behind_a_name_is_used() {
    let set = set_g().encode();
    let site = [b"g".to_vec(), b" ".repeat(1_000_000), b"\r\na\r\n".to_vec()].concat();
    let names = Names { site: &site, built_in: b"" };
    let (mut space, mut text) = ([0; 2 * ROW_CELLS], [0; 4]);
    let rows = with_little_stack(|| read_term(&set, names, b"g(a)", &mut space)).expect("the text is sound");
    assert_eq!(with_little_stack(|| write_term(&set, names, rows, &mut text)), Ok(&b"g(a)"[..]));
}

/// Arrays or objects down to the deepest level, and what stands there; with its place.
fn nested_json(open: impl Fn(usize) -> String, close: &str, innermost: &str) -> (Vec<u8>, u64) {
    let front: String = (1..LEVELS).map(open).collect();
    let place = front.len() as u64;
    ((front + innermost + &close.repeat(LEVELS - 1)).into_bytes(), place)
}

/// Reads JSON on the stack that serves it, to the rows that the reference has; answers their number.
fn rows_of_json(keys: &[u8], text: &[u8]) -> Result<usize, Refusal> {
    let mut space = vec![0; ROW_CELLS * MAX_ROWS];
    let rows = with_stack(JSON_STACK, || read_json(keys, text, &mut space))?;
    let document =
        reference::read_json(keys, text, ROW_CELLS * MAX_ROWS).expect("the reference reads it too");
    assert_eq!(rows, document.cells());
    Ok(document.rows.len())
}

/// A list of 56 keys of 64 bytes each.
fn listed_key(line: usize) -> String {
    format!("{:0>64}", line % 56)
}

#[test]
fn json_of_256_levels_is_read_and_its_faults_are_told() {
    let keys: String = (0..56).map(|line| listed_key(line) + "\n").collect();
    let array = |_: usize| "[".to_string();
    let listed = |level: usize| format!("{{\"{}\":", listed_key(level));
    let other = |level: usize| format!("{{\"key of level {level}, \\ud83d\\ude00\":");
    let forms: [(&dyn Fn(usize) -> String, &str); 3] = [(&array, "]"), (&listed, "}"), (&other, "}")];
    for (open, close) in forms {
        for (innermost, refused) in [
            ("[]", None),
            ("-12345678901234.5", None),
            ("\"\\ud83d\\ude00 and é\"", None),
            ("[1", Some((Reason::TextLevel, 1))),
            ("{\"k\":1", Some((Reason::TextLevel, 1))),
            ("?", Some((Reason::JsonFault, 0))),
            ("\"\\ud800\\ud800\"", Some((Reason::JsonFault, 10))),
            ("12e5", Some((Reason::NumberForm, 0))),
        ] {
            let (text, place) = nested_json(open, close, innermost);
            let answer = rows_of_json(keys.as_bytes(), &text);
            let expected = refused.map(|(reason, behind)| Refusal { reason, place: Some(place + behind) });
            assert_eq!(answer.err(), expected, "{innermost}");
        }
    }
}

/// Each element or member stands a level below the one before it.
#[test]
fn the_longest_arrays_and_objects_are_read() {
    let join = |part: &dyn Fn(usize) -> String| (1..LEVELS).map(part).collect::<Vec<String>>().join(",");
    let array = format!("[{}]", join(&|k| format!("\"text {k}\"")));
    assert_eq!(rows_of_json(b"", array.as_bytes()), Ok(2 * (LEVELS - 1) + 1));
    let object = format!("{{{}}}", join(&|k| format!("\"key {k}\":\"text {k}\"")));
    assert_eq!(rows_of_json(b"", object.as_bytes()), Ok(3 * (LEVELS - 1) + 1));
}

#[test]
fn long_json_is_answered() {
    let million = 1_000_000;
    let elements = format!("[{}1]", "1,".repeat(million));
    let too_deep = Refusal { reason: Reason::TextLevel, place: Some(511) };
    assert_eq!(rows_of_json(b"", elements.as_bytes()), Err(too_deep));
    for text in ["a", "\\n", "é", "\\ud83d\\ude00"] {
        let text = format!("[\"{0}\",{1}\"{0}\"]", text.repeat(million), " ".repeat(million));
        assert_eq!(rows_of_json(b"", text.as_bytes()), Ok(4));
    }
}

/// Judges on little stack with the whole room; the set lets in the document, and the run passes its check there.
fn judged(set: &[u8], rows: &[u16]) -> usize {
    let (mut work, mut run) = (vec![0; ANNOTATION_CELLS * MAX_ROOM], vec![0; STEP_CELLS * MAX_ROOM]);
    assert_eq!(with_little_stack(|| check_document(set, rows)), Ok(()));
    let judgement = with_little_stack(|| membership(set, rows, &mut work, &mut run));
    let Ok(Judgement::Yes(run)) = judgement else { panic!("not let in: {judgement:?}") };
    assert_eq!(with_little_stack(|| check_run(set, rows, run)), Ok(()));
    run.len() / STEP_CELLS
}

/// Four annotations for each of 1,024 rows: all the room.
#[test]
fn the_largest_tables_are_judged() {
    let set = lenient(4);
    let broad = documents::broad(&mut Random::new(1), &set, MAX_ROWS).expect("the set has leaves");
    assert_eq!(judge(&set, &broad, MAX_ROOM).map(|judgement| judgement.annotations), Ok(MAX_ROOM));
    assert_eq!(judged(&set.encode(), &broad.cells()), MAX_ROWS);
    let (text, _) = Spelling::plain().nested(&Spelling::plain().leaf);
    let mut space = vec![0; ROW_CELLS * MAX_ROWS];
    let deep = read_term(&set.encode(), Names::default(), &text, &mut space).expect("256 levels are read");
    assert_eq!(judged(&set.encode(), deep), NESTED_ROWS);
}

/// 1,020 rows with an annotation each, most of them with a row for each of sixteen tags.
#[test]
fn a_table_with_sixteen_tags_is_judged() {
    let export = wide_export(59, None);
    assert_eq!(judged(&wide_set().encode(), &export.cells()), export.rows.len());
}

/// 1,021 rows, and a tag that is forgotten 204 times.
#[test]
fn a_table_of_paired_servers_is_judged() {
    let list = paired_list(204, None);
    assert_eq!(list.rows.len(), 1021);
    assert_eq!(judged(&paired_list_set().encode(), &list.cells()), list.rows.len());
}

#[test]
fn the_longest_run_is_checked() {
    let set = lenient(1);
    let document = documents::chain(&set, LEVELS).expect("the set has leaves");
    let judgement = judge(&set, &document, MAX_ROOM).expect("there is room");
    let run = unfolded(&judgement.run.expect("everything is let in"), MAX_ROOM);
    assert_eq!(run.len(), MAX_ROOM);
    let (set, rows, run) = (set.encode(), document.cells(), run_cells(&run));
    assert_eq!(with_little_stack(|| check_run(&set, &rows, &run)), Ok(()));
}

#[test]
fn a_chain_of_256_states_has_a_lowest_document() {
    let mut rules: Vec<_> = (0..MAX_STATES - 1).map(|q| rule(0, &[q, q, q, q], q + 1)).collect();
    rules.push(rule(1, &[], 0));
    let states = (0..MAX_STATES).map(|q| state(q == MAX_STATES - 1, 0)).collect();
    let set = Automaton { arities: vec![4, 0], states, tag_count: 0, rules }.encode();
    let mut rows = vec![0; ROW_CELLS * MAX_STATES];
    let answer = with_little_stack(|| witness(&set, &mut rows));
    let Ok(Witness::Live { rows, levels }) = answer else { panic!("the chain ends") };
    assert_eq!((rows.len(), levels), (ROW_CELLS * MAX_STATES, LEVELS));
}

/// A set over one symbol with one child, in each form.
fn over_one_symbol(states: usize, tag_count: usize, rules: Vec<Rule>) -> [Vec<u8>; 3] {
    let set = Automaton { arities: vec![1], states: vec![state(true, 0); states], tag_count, rules };
    Form::ALL.map(|form| set.encode_in(form))
}

#[test]
fn a_product_of_1024_rules_is_sorted() {
    let first = over_one_symbol(32, 0, (0..32).map(|q| rule(0, &[q], q)).collect());
    let second = over_one_symbol(8, 0, (0..32).map(|n| rule(0, &[n / 4], n % 4)).collect());
    for (first, second) in first.iter().zip(&second) {
        let mut out = vec![0; MAX_SET_BYTES];
        let both = with_little_stack(|| product(first, second, &mut out)).expect("the result fits");
        assert_eq!((&both[2..4], &both[6..8]), (&256u16.to_le_bytes()[..], &1024u16.to_le_bytes()[..]));
    }
}

#[test]
fn a_union_of_1024_rules_is_merged() {
    for set in over_one_symbol(128, 8, (0..512).map(|n| rule(0, &[n / 4], n % 4)).collect()) {
        let mut out = vec![0; MAX_SET_BYTES];
        let either = with_little_stack(|| union(&set, &set, &mut out)).expect("the result fits");
        assert_eq!(either[2..8], [256u16.to_le_bytes(), 16u16.to_le_bytes(), 1024u16.to_le_bytes()].concat());
        assert_eq!(with_little_stack(|| check_automaton(either)), Ok(()));
    }
}

#[test]
fn the_longest_sets_are_moved_to_each_form() {
    let mut set = lenient(16);
    set.states.resize(MAX_STATES, state(true, 255));
    set.tag_count = 8;
    assert_eq!((set.arities.len(), set.rules.len()), (64, 1024));
    let [narrow, wide, isolating] = Form::ALL.map(|form| set.encode_in(form));
    assert_eq!(isolating.len(), MAX_SET_BYTES);
    let mut out = vec![0; MAX_SET_BYTES];
    assert_eq!(with_little_stack(|| widen_states(&narrow, &mut out)), Ok(&wide[..]));
    assert_eq!(with_little_stack(|| widen_rules(&wide, &mut out)), Ok(&isolating[..]));
    assert_eq!(with_little_stack(|| check_automaton(&isolating)), Ok(()));
    assert_eq!(with_little_stack(|| narrow_rules(&isolating, &mut out)), Ok(&wide[..]));
    assert_eq!(with_little_stack(|| check_automaton(&wide)), Ok(()));
    assert_eq!(with_little_stack(|| narrow_states(&wide, &mut out)), Ok(&narrow[..]));
    let refused = |reason| Err(Refusal { reason, place: None });
    assert_eq!(with_little_stack(|| narrow_states(&isolating, &mut out)), refused(Reason::SetForm));
    set.rules[1023].forgets = 128;
    let forgetting = set.encode();
    assert_eq!(with_little_stack(|| narrow_rules(&forgetting, &mut out)), refused(Reason::RuleForgets));
}
