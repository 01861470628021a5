//! Dead, or live with a lowest document: sets at the limits of states and rules.

use bench::baseline;
use bench::measure::Table;
use cidhomba::{witness, Witness, MAX_STATES, ROW_CELLS};
use reference::examples::{rule, state};
use reference::{Automaton, Rule};

pub fn measure() {
    let table = Table::open("Dead, or live with a lowest document");
    sampled(&table, "256 states in a chain, 1,024 rules: 256 rounds", &chain());
    sampled(&table, "the same, 768 of the rules ready only at the chain's end", &late());
    sampled(&table, "the same, 768 of the rules leading back", &back());
    sampled(&table, "256 states, 16 in a round, 1,024 rules: 16 rounds", &rounds(16));
    sampled(&table, "256 states, 64 in a round, 1,024 rules: 4 rounds", &rounds(64));
}

/// Lets both sides answer, sees that they agree, and measures them.
fn sampled(table: &Table, input: &str, set: &Automaton) {
    assert_eq!((set.states.len(), set.rules.len()), (256, 1024));
    let set = set.encode();
    let mut rows = vec![0; ROW_CELLS * MAX_STATES];
    let space = rows.len();
    let by_rust = baseline::witness::witness(&set, space);
    match witness(&set, &mut rows) {
        Ok(Witness::Live { rows, levels }) => assert_eq!(by_rust, Ok(Some((rows.to_vec(), levels)))),
        Ok(Witness::Dead) => assert_eq!(by_rust, Ok(None)),
        Err(refusal) => assert_eq!(by_rust, Err(refusal.number())),
    }
    table.row(input, || witness(&set, &mut rows).is_ok(), || baseline::witness::witness(&set, space));
}

fn set_of(arities: Vec<u8>, is_final: fn(usize) -> bool, mut rules: Vec<Rule>) -> Automaton {
    rules.sort();
    rules.dedup();
    rules.truncate(1024);
    Automaton {
        arities,
        states: (0..256).map(|number| state(is_final(number), 0)).collect(),
        tag_count: 0,
        rules,
    }
}

/// Each state over four of the one before, from a leaf up.
fn links() -> Vec<Rule> {
    let over = |below: usize| rule(0, &[below; 4], below + 1);
    (0..255).map(over).chain([rule(2, &[], 0)]).collect()
}

/// A chain whose other rules wait for its last state, or lead back from it.
fn chain() -> Automaton {
    let mut rules = links();
    rules.extend((0..256).map(|state| rule(0, &[state, 255, 0, 0], state)));
    rules.extend((0..256).map(|state| rule(1, &[255, state, state], 255 - state)));
    rules.extend((0..256).map(|state| rule(1, &[state, state, 255], state)));
    set_of(vec![4, 3, 0], |state| state == 255, rules)
}

/// A chain whose other rules have three early children and a last one at its end.
fn late() -> Automaton {
    let mut rules = links();
    rules.extend((0..768).map(|number| rule(0, &[0, number / 32, number % 32, 254], 255)));
    set_of(vec![4, 3, 0], |state| state == 255, rules)
}

/// A chain whose other rules lead from each state back to the one before.
fn back() -> Automaton {
    let mut rules = links();
    rules.extend((0..768).map(|number| rule(0, &[number % 255 + 1, number / 255, 0, 0], number % 255)));
    set_of(vec![4, 3, 0], |state| state == 255, rules)
}

/// States in rounds of so many, each over states of the round before by four rules.
fn rounds(wide: usize) -> Automaton {
    let mut rules: Vec<Rule> = Vec::new();
    for number in 0..256 {
        for variant in 0..4 {
            let below = |place: usize| {
                let first = number / wide * wide - wide;
                first + (number * 5 + place * 7 + variant * 11) % wide
            };
            rules.push(if number < wide {
                rule(1 + variant, &[], number)
            } else {
                rule(0, &[0, 1, 2, 3].map(below), number)
            });
        }
    }
    set_of(vec![4, 0, 0, 0, 0], |state| state == 255, rules)
}
