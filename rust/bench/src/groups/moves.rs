//! The four moves between forms: the set of the export, and one at the limits, from each form that a move starts from.

use bench::baseline::moves;
use bench::measure::Table;
use cidhomba::{narrow_rules, narrow_states, widen_rules, widen_states, Refusal, MAX_SET_BYTES};
use generate::export::agreed_set;
use generate::{sets, Random};
use reference::{Automaton, Form};

/// A move by the library, with its space, and one by Rust, with the space's length.
type ByLibrary = for<'a> fn(&[u8], &'a mut [u8]) -> Result<&'a [u8], Refusal>;
type ByRust = fn(&[u8], usize) -> Result<Vec<u8>, u8>;

/// A move on both sides.
struct Move {
    name: &'static str,
    from: Form,
    library: ByLibrary,
    rust: ByRust,
}

const MOVES: [Move; 4] = [
    Move { name: "states widened", from: Form::Narrow, library: widen_states, rust: moves::widen_states },
    Move { name: "states narrowed", from: Form::Wide, library: narrow_states, rust: moves::narrow_states },
    Move { name: "rules widened", from: Form::Wide, library: widen_rules, rust: moves::widen_rules },
    Move { name: "rules narrowed", from: Form::Isolating, library: narrow_rules, rust: moves::narrow_rules },
];

pub fn measure() {
    let table = Table::open("Moves between forms");
    let largest = sets::automaton(&mut Random::new(1), &sets::largest_narrow_sizes());
    for set in [agreed_set(), largest] {
        MOVES.iter().for_each(|a_move| moved(&table, a_move, &set));
    }
}

/// Lets both sides move a set, sees that they agree, and measures them.
fn moved(table: &Table, a_move: &Move, set: &Automaton) {
    let Move { name, from, library, rust } = a_move;
    let input = format!("{name}, {} states and {} rules", set.states.len(), set.rules.len());
    let (set, mut out) = (set.encode_in(*from), vec![0; MAX_SET_BYTES]);
    let by_rust = rust(&set, MAX_SET_BYTES).expect("the move starts from this form");
    assert_eq!(library(&set, &mut out), Ok(&by_rust[..]), "{input}");
    table.row(&input, || library(&set, &mut out).map(<[u8]>::len), || rust(&set, MAX_SET_BYTES));
}
