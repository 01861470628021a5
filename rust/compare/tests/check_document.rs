//! The library's check of a row table against the reference's.

use compare::answer::Answer;
use compare::calls::check_document as compare;
use compare::tally::{Tally, SET, TABLE};
use generate::{documents, rows, set_bytes, sets, Random};
use reference::examples::set_e;
use reference::limits::{ROW_CELLS, UNUSED};
use reference::{Automaton, Row, Scalar, MINUS_ZERO};

#[test]
fn seeded_tables() {
    let mut tally = Tally::of("check_document");
    for seed in 0..25_000 {
        let random = &mut Random::new(seed);
        let sizes = sets::any_sizes(random);
        let automaton = sets::any_automaton(random, &sizes);
        let most = random.pick(&[1, 3, 8, 8, 40, 40, 300]);
        let rows = rows::lent(random, &automaton, most, 75);
        let set = set_bytes::stored(random, &automaton, 20);
        tally.count(compare(&set, &rows), |_| "sound");
    }
    let numbers = [&SET[..], &TABLE].concat();
    tally.must_reach(20_000, 200, &numbers, &["sound"]);
}

/// Symbols of every number of children, and every kind of scalar.
fn table_with_everything() -> (Automaton, Vec<u16>) {
    let automaton = Automaton { arities: vec![0, 1, 2, 3, 4], ..set_e_without_rules() };
    let leaf = |scalar| Row { symbol: 0, children: vec![], scalar };
    let over = |symbol, children: &[usize]| Row { symbol, children: children.to_vec(), scalar: Scalar::Bare };
    let rows = [
        leaf(Scalar::Bare),
        leaf(Scalar::Flag(true)),
        leaf(Scalar::Count(1)),
        leaf(Scalar::Rate(1)),
        leaf(Scalar::Name(u32::MAX)),
        // One cell from the rate that may stand in no row: the lowest of the payload, and the kind.
        leaf(Scalar::Rate(MINUS_ZERO | 1)),
        leaf(Scalar::Count(MINUS_ZERO)),
        over(1, &[0]),
        over(2, &[1, 2]),
        over(3, &[3, 4, 7]),
        over(3, &[5, 6, 0]),
        over(4, &[8, 9, 8, 10]),
    ];
    (automaton, rows.iter().flat_map(Row::cells).collect())
}

fn set_e_without_rules() -> Automaton {
    Automaton { rules: vec![], ..set_e() }
}

#[test]
fn every_cell_of_a_table_with_everything() {
    let (automaton, sound) = table_with_everything();
    let set = automaton.encode();
    let mut tally = Tally::of("check_document, cell by cell");
    assert_eq!(compare(&set, &sound), Answer::Value(0));
    for at in 0..sound.len() {
        let edges = (0..=16).chain([255, 256, 1023, 1024, 4096, 32_767, 32_768, 65_534, 65_535]);
        for value in edges.chain((0..16).map(|bit| sound[at] ^ 1 << bit)) {
            let mut rows = sound.clone();
            rows[at] = value;
            tally.count(compare(&set, &rows), |_| "sound");
        }
    }
    tally.must_reach(3000, 1, &[12, 13, 14, 15, 16], &["sound"]);
}

#[test]
fn every_kind_with_payloads_at_its_limits() {
    let set = set_e().encode();
    let payloads = [0, 1, 2, u64::from(u32::MAX), 1 << 32, 1 << 48, u64::MAX];
    let around_minus_zero = [MINUS_ZERO - 1, MINUS_ZERO, MINUS_ZERO | 1, MINUS_ZERO | 1 << 62];
    let not_numbers = [f64::NAN, -f64::NAN, f64::NEG_INFINITY].map(f64::to_bits);
    let payloads = [&payloads[..], &around_minus_zero, &not_numbers].concat();
    for kind in (0..=8).chain([255, 256, 65_535]) {
        for &payload in &payloads {
            let mut rows = Row { symbol: 1, children: vec![], scalar: Scalar::Count(payload) }.cells();
            rows[5] = kind;
            let sound = match kind {
                0 => payload == 0,
                1 => payload <= 1,
                2 => true,
                3 => payload != MINUS_ZERO,
                4 => payload <= u64::from(u32::MAX),
                _ => false,
            };
            let expected = if sound { None } else { Some(14) };
            assert_eq!(compare(&set, &rows).number(), expected, "kind {kind}, payload {payload}");
        }
    }
}

#[test]
fn every_length() {
    let (automaton, sound) = table_with_everything();
    let set = automaton.encode();
    for length in 0..=sound.len() {
        let number = compare(&set, &sound[..length]).number();
        let is_whole = length > 0 && length % ROW_CELLS == 0;
        assert_eq!(number != Some(11), is_whole, "{length} cells");
    }
}

#[test]
fn rows_at_their_limit() {
    let set = set_e();
    for (rows, expected) in [(1, None), (2, None), (1023, None), (1024, None), (1025, Some(11))] {
        let table = documents::broad(&mut Random::new(3), &set, rows).expect("E has leaves");
        assert_eq!(table.rows.len(), rows);
        assert_eq!(compare(&set.encode(), &table.cells()).number(), expected, "{rows} rows");
    }
    let many = vec![UNUSED; 70_000 * ROW_CELLS];
    assert_eq!(compare(&set.encode(), &many).number(), Some(11));
}

#[test]
fn levels_at_their_limit() {
    for arities in [vec![1, 0], vec![2, 0], vec![4, 0]] {
        let set = Automaton { arities, ..set_e_without_rules() };
        for (levels, expected) in [(1, None), (255, None), (256, None), (257, Some(17)), (1024, Some(17))] {
            let table = documents::chain(&set, levels).expect("there is a leaf");
            assert_eq!(table.levels(), levels);
            assert_eq!(compare(&set.encode(), &table.cells()).number(), expected, "{levels} levels");
        }
    }
}

#[test]
fn rows_that_differ_in_one_cell_only_are_not_equal() {
    let set = Automaton { arities: vec![2, 0, 0], ..set_e_without_rules() }.encode();
    let leaf = |bits| Row { symbol: 1, children: vec![], scalar: Scalar::Rate(bits) };
    let pair = Row { symbol: 0, children: vec![0, 1], scalar: Scalar::Bare };
    for bits in [0, 1.5f64.to_bits()] {
        for other in (0..64).map(|bit| bits ^ 1 << bit) {
            let is_sound = other != MINUS_ZERO;
            let (apart, alike) = if is_sound { (None, Some(15)) } else { (Some(14), Some(14)) };
            let rows = [leaf(bits).cells(), leaf(other).cells(), pair.cells()].concat();
            assert_eq!(compare(&set, &rows).number(), apart, "{bits:016x} and {other:016x}");
            let rows = [leaf(other).cells(), leaf(other).cells(), pair.cells()].concat();
            assert_eq!(compare(&set, &rows).number(), alike, "{other:016x} twice");
        }
    }
}

#[test]
fn equal_rows_are_found_however_far_apart() {
    let set = set_e();
    let table = documents::broad(&mut Random::new(5), &set, 1023).expect("E has leaves");
    for number in [0, 1, 511, 600, 1021] {
        let mut twice = table.clone();
        let mut copy = twice.rows[number].clone();
        let last = twice.last();
        twice.rows.push(copy.clone());
        assert_eq!(compare(&set.encode(), &twice.cells()).number(), Some(15), "row {number}");
        copy = Row { symbol: 0, children: vec![last, 0], scalar: Scalar::Bare };
        *twice.rows.last_mut().expect("not empty") = copy;
        assert_eq!(compare(&set.encode(), &twice.cells()), Answer::Value(0));
    }
}

#[test]
fn an_unused_row_is_found_wherever_it_stands() {
    let set = set_e();
    let sound = documents::broad(&mut Random::new(9), &set, 101).expect("E has leaves");
    let leaf_count = sound.rows.iter().filter(|row| row.children.is_empty()).count();
    for user in leaf_count..sound.rows.len() {
        let mut table = sound.clone();
        // The row uses its first child twice, and what was its second child is used no more.
        table.rows[user].children[1] = table.rows[user].children[0];
        assert_eq!(compare(&set.encode(), &table.cells()).number(), Some(16), "row {user}");
    }
}
