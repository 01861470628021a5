//! The library's product against the reference's.

mod pairs;

use cidhomba::interface::product;
use cidhomba::MAX_SET_BYTES;
use pairs::{forgetting, of_counts, Operation};
use reference::examples::{balanced_trees, doubled_lists, lists_of_equal_pairs, set_b, set_d, set_e};
use reference::Automaton;

const PRODUCT: Operation = Operation { name: "product", library: product, reference: reference::product };

#[test]
fn seeded_pairs() {
    PRODUCT.compare_seeded_pairs();
}

#[test]
fn every_space_for_the_examples() {
    PRODUCT.compare_every_space(&set_e(), &set_b());
    PRODUCT.compare_every_space(&set_b(), &set_e());
    PRODUCT.compare_every_space(&set_e(), &set_d());
    PRODUCT.compare_every_space(&set_e(), &set_e());
    PRODUCT.compare_every_space(&lists_of_equal_pairs(), &doubled_lists());
    PRODUCT.compare_every_space(&doubled_lists(), &doubled_lists());
    PRODUCT.compare_every_space(&balanced_trees(), &balanced_trees());
}

#[test]
fn the_order_of_places() {
    PRODUCT.compare_order_of_places();
    PRODUCT.compare_order_of_forgetting();
}

#[test]
fn what_either_set_forgets() {
    PRODUCT.compare_masks();
}

#[test]
fn results_at_the_limits() {
    for (first, second, expected) in [
        (of_counts(16, 0, 5), of_counts(16, 0, 5), None),
        (of_counts(256, 0, 5), of_counts(1, 0, 1), None),
        (of_counts(1, 0, 1), of_counts(256, 0, 5), None),
        (of_counts(129, 0, 5), of_counts(2, 0, 5), Some(52)),
        (of_counts(17, 0, 5), of_counts(16, 0, 5), Some(52)),
        (of_counts(256, 0, 0), of_counts(256, 0, 0), Some(52)),
        (of_counts(5, 8, 5), of_counts(5, 0, 5), None),
        (of_counts(5, 0, 5), of_counts(5, 8, 5), None),
        (of_counts(5, 3, 5), of_counts(5, 5, 5), None),
        (of_counts(5, 8, 5), of_counts(5, 8, 5), None),
        (of_counts(5, 8, 5), of_counts(5, 9, 5), Some(52)),
        (of_counts(5, 9, 5), of_counts(5, 7, 5), None),
        (of_counts(5, 16, 5), of_counts(5, 0, 5), None),
        (of_counts(5, 0, 5), of_counts(5, 16, 5), None),
        (of_counts(5, 15, 5), of_counts(5, 1, 5), None),
        (of_counts(5, 16, 5), of_counts(5, 1, 5), Some(52)),
        (of_counts(5, 16, 5), of_counts(5, 16, 5), Some(52)),
        (of_counts(5, 0, 32), of_counts(5, 0, 32), None),
        (of_counts(6, 0, 1024), of_counts(5, 0, 1), None),
        (of_counts(6, 0, 1024), of_counts(5, 0, 0), None),
        (of_counts(5, 0, 25), of_counts(5, 0, 41), Some(52)),
        (of_counts(6, 0, 1024), of_counts(6, 0, 1024), Some(52)),
        (of_counts(16, 8, 32), of_counts(16, 8, 32), None),
    ] {
        assert_eq!(PRODUCT.number(&first, &second), expected);
    }
}

/// The longest result has 64 symbols, 256 states and 1,024 rules of 14 bytes.
#[test]
fn the_longest_results_with_rules_of_14_bytes() {
    let with_all_symbols = |mut set: Automaton| {
        set.arities.resize(64, 0);
        set
    };
    let root = with_all_symbols(of_counts(16, 8, 32));
    PRODUCT.compare_longest(&root, &root, MAX_SET_BYTES);
    PRODUCT.compare_longest(&forgetting(8, 255), &forgetting(8, 255), 16 + 2 + 3 * 9 + 14 * 9);
}
