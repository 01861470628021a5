//! The library's union against the reference's.

mod pairs;

use cidhomba::interface::union;
use cidhomba::MAX_SET_BYTES;
use pairs::{forgetting, of_counts, Operation};
use reference::examples::{balanced_trees, doubled_lists, lists_of_equal_pairs, set_b, set_d, set_e};
use reference::Automaton;

const UNION: Operation = Operation { name: "union", library: union, reference: reference::union };

#[test]
fn seeded_pairs() {
    UNION.compare_seeded_pairs();
}

#[test]
fn every_space_for_the_examples() {
    UNION.compare_every_space(&set_e(), &set_b());
    UNION.compare_every_space(&set_b(), &set_e());
    UNION.compare_every_space(&set_e(), &set_d());
    UNION.compare_every_space(&set_e(), &set_e());
    UNION.compare_every_space(&lists_of_equal_pairs(), &doubled_lists());
    UNION.compare_every_space(&doubled_lists(), &doubled_lists());
    UNION.compare_every_space(&balanced_trees(), &balanced_trees());
}

#[test]
fn the_order_of_places() {
    UNION.compare_order_of_places();
    UNION.compare_order_of_forgetting();
}

#[test]
fn what_either_set_forgets() {
    UNION.compare_masks();
}

#[test]
fn results_at_the_limits() {
    for (first, second, expected) in [
        (of_counts(128, 0, 5), of_counts(128, 0, 5), None),
        (of_counts(255, 0, 5), of_counts(1, 0, 1), None),
        (of_counts(256, 0, 5), of_counts(1, 0, 1), Some(52)),
        (of_counts(129, 0, 5), of_counts(128, 0, 5), Some(52)),
        (of_counts(20, 8, 5), of_counts(20, 0, 5), None),
        (of_counts(20, 0, 5), of_counts(20, 8, 5), None),
        (of_counts(20, 3, 5), of_counts(20, 5, 5), None),
        (of_counts(20, 8, 5), of_counts(20, 8, 5), None),
        (of_counts(20, 8, 5), of_counts(20, 9, 5), Some(52)),
        (of_counts(20, 9, 5), of_counts(20, 7, 5), None),
        (of_counts(20, 16, 5), of_counts(20, 0, 5), None),
        (of_counts(20, 0, 5), of_counts(20, 16, 5), None),
        (of_counts(20, 15, 5), of_counts(20, 1, 5), None),
        (of_counts(20, 16, 5), of_counts(20, 1, 5), Some(52)),
        (of_counts(20, 16, 5), of_counts(20, 16, 5), Some(52)),
        (of_counts(20, 0, 512), of_counts(20, 0, 512), None),
        (of_counts(20, 0, 1024), of_counts(20, 0, 0), None),
        (of_counts(20, 0, 1024), of_counts(20, 0, 1), Some(52)),
        (of_counts(20, 0, 513), of_counts(20, 0, 512), Some(52)),
        (of_counts(128, 8, 512), of_counts(128, 8, 512), None),
    ] {
        assert_eq!(UNION.number(&first, &second), expected);
    }
}

/// The longest result has 64 symbols, 256 states and 1,024 rules of 14 bytes.
#[test]
fn the_longest_results_with_rules_of_14_bytes() {
    let with_all_symbols = |mut set: Automaton| {
        set.arities.resize(64, 0);
        set
    };
    let half = with_all_symbols(of_counts(128, 8, 512));
    UNION.compare_longest(&half, &half, MAX_SET_BYTES);
    UNION.compare_longest(&forgetting(8, 255), &forgetting(8, 255), 16 + 2 + 3 * 6 + 14 * 6);
}
