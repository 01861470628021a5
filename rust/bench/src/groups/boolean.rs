//! Union and product, with results at the limit of 1,024 rules.

use bench::baseline;
use bench::measure::Table;
use cidhomba::{product, union, MAX_SET_BYTES};
use reference::examples::{rule, state};
use reference::{Automaton, Rule};

pub fn measure() {
    let table = Table::open("Union and product");
    let mut out = vec![0; MAX_SET_BYTES];
    let (first, second) = (four_symbols(3).encode(), four_symbols(5).encode());
    let by_rust = baseline::boolean::product(&first, &second, out.len()).expect("within the limits");
    assert_eq!(product(&first, &second, &mut out), Ok(&by_rust[..]));
    assert_eq!(rule_count(&by_rust), 1024);
    table.row(
        "product of 64 and 64 rules: 1,024 rules, 256 states",
        || product(&first, &second, &mut out).map(<[u8]>::len),
        || baseline::boolean::product(&first, &second, MAX_SET_BYTES),
    );
    let (first, second) = (many_rules(3).encode(), many_rules(5).encode());
    let by_rust = baseline::boolean::union(&first, &second, out.len()).expect("within the limits");
    assert_eq!(union(&first, &second, &mut out), Ok(&by_rust[..]));
    assert_eq!(rule_count(&by_rust), 1024);
    table.row(
        "union of 512 and 512 rules: 256 states",
        || union(&first, &second, &mut out).map(<[u8]>::len),
        || baseline::boolean::union(&first, &second, MAX_SET_BYTES),
    );
}

fn rule_count(set: &[u8]) -> u16 {
    u16::from_le_bytes([set[6], set[7]])
}

/// A set over one symbol of each number of children in 0, 1, 2 and 4, with `each` rules for each over so many states.
fn of_sizes(states: usize, each: usize, stride: usize) -> Automaton {
    let mut rules: Vec<Rule> = Vec::new();
    for number in 0..each {
        let at = |place: usize| (number * stride + place * (stride + 2) + number / states) % states;
        rules.push(rule(0, &[], number % states));
        rules.push(rule(1, &[number % states], at(1)));
        rules.push(rule(2, &[number % states, at(1)], at(2)));
        rules.push(rule(3, &[number % states, at(1), at(2), at(3)], at(4)));
    }
    rules.sort();
    rules.dedup();
    Automaton {
        arities: vec![0, 1, 2, 4],
        states: (0..states).map(|number| state(number % 3 == 0, (number % 16) as u16)).collect(),
        tag_count: 4,
        rules,
    }
}

/// 16 states and 16 rules for each of four symbols: the product of two has 256 rules for each.
fn four_symbols(stride: usize) -> Automaton {
    of_sizes(16, 16, stride)
}

/// 128 states and 128 rules for each of four symbols.
fn many_rules(stride: usize) -> Automaton {
    of_sizes(128, 128, stride)
}
