//! Rows that stand one on the other, each with the row below as all of its children, and sets in which each of them may
//! carry a tag. A row has an annotation for each choice of tags in it and below, so that the memories of its children
//! are joined in many ways and meet in few.

use reference::examples::{rule, state};
use reference::{Automaton, Document, Row, Rule, Scalar};

use crate::trees::all_lists;

/// Whether a row carries its tag.
#[derive(Clone, Copy)]
pub enum Carries {
    Always,
    OrNot,
}

/// A row of a tower: how many children it has, all of them the row below, and whether it carries a tag of its own.
pub type Storey = (usize, Carries);

/// A symbol for each number of children, which is also its own.
const ARITIES: [u8; 5] = [0, 1, 2, 3, 4];

/// The tower of some rows, the first of which is a leaf, and the set that lets it in with each choice of tags.
pub fn tower(storeys: &[Storey]) -> (Automaton, Document) {
    // States 2k with the row's tag, and 2k + 1 without a tag.
    let reached = |row: usize| match storeys[row].1 {
        Carries::Always => vec![2 * row],
        Carries::OrNot => vec![2 * row, 2 * row + 1],
    };
    let mut rules = Vec::new();
    for (row, &(children, _)) in storeys.iter().enumerate() {
        let below = row.checked_sub(1).map_or(Vec::new(), reached);
        rules.extend(every_mix(children, &below, &reached(row)));
    }
    rules.sort();
    let tag_count = storeys.len();
    let states = (0..tag_count).flat_map(|row| [1 << row, 0].map(|tags| state(row + 1 == tag_count, tags)));
    let set = Automaton { arities: ARITIES.to_vec(), states: states.collect(), tag_count, rules };
    let widths: Vec<usize> = storeys.iter().map(|&(children, _)| children).collect();
    (set, rows_of(&widths))
}

/// The rules from any mix of some states to each of the targets.
fn every_mix(children: usize, below: &[usize], targets: &[usize]) -> Vec<Rule> {
    let mixes = all_lists(below, children).into_iter();
    mixes.flat_map(|mix| targets.iter().map(move |&target| rule(children, &mix, target))).collect()
}

/// Rows with so many children each, all of them the row below.
fn rows_of(widths: &[usize]) -> Document {
    let row = |(number, &children): (usize, &usize)| Row {
        symbol: children,
        children: vec![number.saturating_sub(1); children],
        scalar: Scalar::Bare,
    };
    Document { rows: widths.iter().enumerate().map(row).collect() }
}

/// A tower of so many rows with a tag each, in which a row has the one below for so many children. The last so many
/// rows carry their tag or not, and the others always.
pub fn of_width(width: usize, tags: usize, free: usize) -> (Automaton, Document) {
    let carries = |row: usize| if row + free < tags { Carries::Always } else { Carries::OrNot };
    let storeys: Vec<Storey> =
        (0..tags).map(|row| (if row == 0 { 0 } else { width }, carries(row))).collect();
    tower(&storeys)
}

/// So many levels of rows with four children over a chain of two rows, all of which carry a tag or not: every choice of
/// four memories is joined, and they meet in as many as one child has.
pub fn fourfold(levels: usize) -> (Automaton, Document) {
    let mut storeys = vec![(0, Carries::OrNot), (1, Carries::OrNot)];
    storeys.extend(vec![(4, Carries::OrNot); levels]);
    tower(&storeys)
}

/// Tags of the towers that forget, which their rows carry in turn.
const TURNS: usize = 8;
/// How many rows a memory of theirs goes back: each rule forgets the tag of the row so far below.
const KEPT: usize = 5;

/// A tower of so many rows over a leaf, with four children each, that carry eight tags in turn or do not; a rule
/// forgets the tag of the row five rows below. So there are 32 memories on a row, however many rows there are.
pub fn forgetting(rows: usize) -> (Automaton, Document) {
    let reached = |turn: usize| [2 * turn, 2 * turn + 1];
    let mut rules = every_mix(0, &[], &reached(0));
    for turn in 0..TURNS {
        let below = reached((turn + TURNS - 1) % TURNS);
        let forgets = 1 << ((turn + TURNS - KEPT) % TURNS);
        let mixes = every_mix(4, &below, &reached(turn)).into_iter();
        rules.extend(mixes.map(|rule| rule.forgetting(forgets)));
    }
    rules.sort();
    let of_turn = |turn: usize| [state(turn == rows % TURNS, 1 << turn), state(turn == rows % TURNS, 0)];
    let states = (0..TURNS).flat_map(of_turn).collect();
    let set = Automaton { arities: ARITIES.to_vec(), states, tag_count: TURNS, rules };
    (set, rows_of(&[&[0], &vec![4; rows][..]].concat()))
}

#[cfg(test)]
mod tests {
    use super::*;
    use reference::limits::MAX_ROOM;
    use reference::membership::judge;
    use reference::{check_automaton, check_document};

    /// The annotations of a sound tower, which its sound set lets in.
    fn annotations((set, document): (Automaton, Document)) -> usize {
        assert_eq!(check_automaton(&set.encode()), Ok(set.clone()));
        assert!(check_document(&set.encode(), &document.cells()).is_ok());
        let judgement = judge(&set, &document, MAX_ROOM).expect("there is room");
        assert!(judgement.is_yes());
        judgement.annotations
    }

    #[test]
    fn annotations_double_with_each_row_that_may_carry_a_tag() {
        for width in [1, 2, 3, 4] {
            assert_eq!(annotations(of_width(width, 4, 4)), 2 + 4 + 8 + 16, "{width} children");
            assert_eq!(annotations(of_width(width, 16, 3)), 13 + 2 + 4 + 8, "{width} children");
        }
        assert_eq!(annotations(of_width(1, 13, 11)), MAX_ROOM);
        for levels in 0..=3 {
            assert_eq!(annotations(fourfold(levels)), (8 << levels) - 2, "{levels} levels");
        }
    }

    #[test]
    fn a_tower_that_forgets_has_as_many_annotations_on_each_row() {
        assert_eq!(annotations(forgetting(0)), 2);
        assert_eq!(annotations(forgetting(4)), 2 + 4 + 8 + 16 + 32);
        assert_eq!(annotations(forgetting(21)), 2 + 4 + 8 + 16 + 18 * 32);
    }
}
