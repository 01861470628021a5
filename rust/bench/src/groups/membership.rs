//! Judging: exports, many states, a full room, a hard input, wide sets whose sixteen tags are all carried, and paired
//! servers with a set that forgets.

use bench::baseline;
use bench::measure::Table;
use cidhomba::MAX_ROOM;
use generate::export::{agreed_set, export, Columns};
use generate::paired_list::{paired_list, paired_list_set};
use generate::wide_export::{wide_export, wide_set};
use generate::{documents, sets, Random};
use reference::examples::{rule, state};
use reference::{Automaton, Document, Row, Scalar};

use super::judging::judged_against;

pub fn measure() {
    let table = Table::open("Judging, with room for 1,024 annotations of an export and else for 4,096");
    for servers in [30, 60, 80] {
        let document = export(servers, Columns::Agreed);
        let input = format!("export of {servers} servers, {} rows", document.rows.len());
        judged(&table, &input, &agreed_set(), &document, 1024);
    }
    let (set, document) = many_states();
    judged(&table, "1,000 rows, 200 rules, 256 states", &set, &document, MAX_ROOM);
    let (set, document) = wide();
    fills_the_room(&set, &document);
    judged(&table, "4,096 annotations, 4 on each row", &set, &document, MAX_ROOM);
    let (set, document) = deep();
    fills_the_room(&set, &document);
    judged(&table, "4,096 annotations, up to 90 on a row", &set, &document, MAX_ROOM);
    let (set, document) = hard();
    judged(&table, "hard: 2 million choices, all in vain", &set, &document, MAX_ROOM);
    sixteen_tags(&table);
    for pairs in [40, 200] {
        let document = paired_list(pairs, None);
        let input = format!("{pairs} pairs of servers, by a set that forgets, {} rows", document.rows.len());
        judged(&table, &input, &paired_list_set(), &document, 1024);
    }
}

/// Servers with sixteen parts each that must be the same, then one of them with another part, and a chain whose rows
/// carry a tag each or do not, so that a row has up to 1,024 memories.
fn sixteen_tags(table: &Table) {
    for servers in [20, 59] {
        let document = wide_export(servers, None);
        let input = format!("16 tags: {servers} servers with 16 equal parts, {} rows", document.rows.len());
        judged(table, &input, &wide_set(), &document, 1024);
    }
    let document = wide_export(59, Some(15));
    judged(table, "the same, but one part of the last server differs", &wide_set(), &document, 1024);
    let set = sets::of_choices(16, 10);
    let document = documents::chain(&set, 16).expect("there is a leaf");
    judged(table, "16 tags: 2,052 annotations, up to 1,024 on a row", &set, &document, MAX_ROOM);
}

/// Measures an input against the Rust that tries every choice.
fn judged(table: &Table, input: &str, set: &Automaton, document: &Document, room: usize) {
    judged_against(baseline::membership::membership, table, input, (set, document), room);
}

fn over(symbol: usize, children: &[usize]) -> Row {
    Row { symbol, children: children.to_vec(), scalar: Scalar::Bare }
}

fn leaf(symbol: usize, number: usize) -> Row {
    Row { symbol, children: Vec::new(), scalar: Scalar::Count(number as u64) }
}

/// A chain of 249 pairs of sixteen kinds, and three rows around it: 1,000 rows. Each leaf and each pair has four
/// states, which go together, and the chain's state tells the kind that comes next. There are 200 rules.
fn many_states() -> (Automaton, Document) {
    const KINDS: usize = 16;
    const PAIRS: usize = 249;
    let [chain, end, around] = [2 * KINDS, 2 * KINDS + 1, 2 * KINDS + 2];
    let chain_state = |kind: usize| 8 * KINDS + kind % KINDS;
    let mut rules = vec![rule(around, &[chain_state(0)], chain_state(0)), rule(end, &[], chain_state(PAIRS))];
    rules.extend((200..206).map(|target| rule(end, &[], target)));
    for (kind, colour) in (0..KINDS).flat_map(|kind| (0..4).map(move |colour| (kind, colour))) {
        let (leaf, pair) = (4 * kind + colour, 4 * (KINDS + kind) + colour);
        rules.push(rule(kind, &[], leaf));
        rules.push(rule(KINDS + kind, &[leaf, leaf], pair));
        rules.push(rule(chain, &[pair, chain_state(kind + 1)], chain_state(kind)));
    }
    rules.sort();
    let mut rows = Vec::new();
    for number in 0..PAIRS {
        let kind = number % KINDS;
        rows.extend([leaf(kind, 2 * number), leaf(kind, 2 * number + 1)]);
        rows.push(over(KINDS + kind, &[3 * number, 3 * number + 1]));
    }
    rows.push(over(end, &[]));
    for number in (0..PAIRS).rev() {
        rows.push(over(chain, &[3 * number + 2, rows.len() - 1]));
    }
    for _ in 0..3 {
        rows.push(over(around, &[rows.len() - 1]));
    }
    let arities = [vec![0; KINDS], vec![2; KINDS], vec![2, 0, 1]].concat();
    let states = (0..256).map(|number| state(number == chain_state(0), 0)).collect();
    let set = Automaton { arities, states, tag_count: 0, rules };
    assert_eq!((set.rules.len(), rows.len()), (200, 1000));
    (set, Document { rows })
}

/// Stops unless a document has exactly as many annotations as there can be room for.
fn fills_the_room(set: &Automaton, document: &Document) {
    let judgement = reference::membership::judge(set, document, MAX_ROOM);
    assert_eq!(judgement.map(|judgement| judgement.annotations), Ok(MAX_ROOM));
}

/// Every row in four states: 1,024 rows with 4,096 annotations.
fn wide() -> (Automaton, Document) {
    let inner = (0..4).map(|target| rule(0, &[target, target, target, target], target));
    let leaves = (0..4).map(|target| rule(1, &[], target));
    let set = Automaton {
        arities: vec![4, 0],
        states: vec![state(true, 0); 4],
        tag_count: 0,
        rules: inner.chain(leaves).collect(),
    };
    let document = documents::broad(&mut Random::new(11), &set, 1024).expect("there are leaves");
    (set, document)
}

/// A chain in which one row may carry the tag: 90 rows with 4,096 annotations, as many on a row as are below it.
fn deep() -> (Automaton, Document) {
    let set = Automaton {
        arities: vec![1, 0],
        states: vec![state(false, 0), state(true, 1), state(false, 0)],
        tag_count: 1,
        rules: vec![rule(0, &[0], 0), rule(0, &[0], 1), rule(0, &[1], 0), rule(1, &[], 0), rule(1, &[], 2)],
    };
    let document = documents::chain(&set, 90).expect("there is a leaf");
    (set, document)
}

/// Three trees of 128 leaves, in each of which one leaf is picked by the tree's own tag, and a leaf that carries
/// the first tree's tag as well: every choice of three picks is tried, and fails at the fourth child.
fn hard() -> (Automaton, Document) {
    const LEAVES: usize = 128;
    const ROOT: usize = 6;
    const LAST: usize = 7;
    let mut rules = vec![rule(ROOT, &[1, 3, 5, 6], 7), rule(LAST, &[], 6)];
    let mut rows = Vec::new();
    let mut tops = Vec::new();
    for tree in 0..3 {
        // In state `none` nothing below is picked, in state `one` one leaf is.
        let (leaf_symbol, inner, none, one) = (2 * tree, 2 * tree + 1, 2 * tree, 2 * tree + 1);
        let picked = 8 + tree;
        rules.extend([rule(leaf_symbol, &[], none), rule(leaf_symbol, &[], picked)]);
        rules.push(rule(inner, &[none, none], none));
        for pick in [one, picked] {
            rules.extend([rule(inner, &[none, pick], one), rule(inner, &[pick, none], one)]);
        }
        let first = rows.len();
        rows.extend((0..LEAVES).map(|number| leaf(leaf_symbol, number)));
        rows.extend((0..LEAVES - 1).map(|pair| over(inner, &[first + 2 * pair, first + 2 * pair + 1])));
        tops.push(rows.len() - 1);
    }
    rows.push(leaf(LAST, 0));
    tops.push(rows.len() - 1);
    rows.push(over(ROOT, &tops));
    rules.sort();
    let tags = |number: usize| match number {
        6 => 1,
        8..=10 => 1 << (number - 8),
        _ => 0,
    };
    let states = (0..11).map(|number| state(number == 7, tags(number))).collect();
    let set = Automaton { arities: vec![0, 2, 0, 2, 0, 2, 4, 0], states, tag_count: 3, rules };
    (set, Document { rows })
}
