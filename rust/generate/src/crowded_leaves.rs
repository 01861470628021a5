//! Leaves that can be in nearly every one of 256 states, and rows over them with hundreds of rules that never hold.

use reference::examples::{rule, state};
use reference::limits::MAX_STATES;
use reference::{Automaton, Document, Row, Rule, Scalar};

/// Symbols: a link has a row of four leaves and the rest of the list.
const LINK: usize = 0;
const FOUR: usize = 1;
const END: usize = 2;
const LEAF: usize = 3;

/// A leaf can be in every state below this; the first sixteen of them carry eight tags.
const ON_LEAVES: usize = 240;
const TAGGED: usize = 16;
const TAGS: usize = 8;
/// The states of a row over four leaves and of the list. Those above are on no row.
const A_FOUR: usize = ON_LEAVES;
const A_LIST: usize = ON_LEAVES + 1;
const NOWHERE: usize = ON_LEAVES + 2;

/// Leaves, and rows over four of them, no two of which have the same four.
const LEAVES: usize = 12;
const FOURS: usize = 150;

/// A state that is on no row.
fn nowhere(number: usize) -> usize {
    NOWHERE + number % (MAX_STATES - NOWHERE)
}

/// A state of a leaf that carries no tag.
fn untagged(number: usize) -> usize {
    TAGGED + number % (ON_LEAVES - TAGGED)
}

/// Rules over four leaves that never hold: three states are on every leaf, and the last one is nowhere.
fn with_a_state_missing() -> Vec<Rule> {
    let asked = |number: usize| {
        let again = number / (ON_LEAVES - TAGGED);
        [untagged(number), untagged(7 * number), untagged(11 * number + again), nowhere(number)]
    };
    (0..420).map(|number| rule(FOUR, &asked(number), A_FOUR)).collect()
}

/// Rules over four leaves that never hold: all states are on every leaf, and two of them carry one tag.
fn with_a_clash() -> Vec<Rule> {
    let asked = |number: usize| {
        let tagged = number % TAGS;
        [tagged, untagged(number), untagged(3 * number), tagged + TAGS]
    };
    (0..180).map(|number| rule(FOUR, &asked(number), A_FOUR)).collect()
}

/// Rules for the list that never hold.
fn with_a_rest_missing() -> Vec<Rule> {
    (0..150).map(|number| rule(LINK, &[A_FOUR, nowhere(number)], number)).collect()
}

/// The set: 256 states and 8 tags. Of its 993 rules, 750 hold nowhere.
pub fn crowded_set() -> Automaton {
    let mut rules =
        vec![rule(LINK, &[A_FOUR, A_LIST], A_LIST), rule(FOUR, &[TAGGED; 4], A_FOUR), rule(END, &[], A_LIST)];
    rules.extend((0..ON_LEAVES).map(|target| rule(LEAF, &[], target)));
    rules.extend([with_a_state_missing(), with_a_clash(), with_a_rest_missing()].concat());
    rules.sort();
    let tags = |number: usize| if number < TAGGED { 1 << (number % TAGS) } else { 0 };
    Automaton {
        arities: vec![2, 4, 0, 0],
        states: (0..MAX_STATES).map(|number| state(number == A_LIST, tags(number))).collect(),
        tag_count: TAGS,
        rules,
    }
}

/// The document: a list of 150 rows over four of twelve leaves each, 313 rows in all.
pub fn crowded_document() -> Document {
    let leaf = |symbol: usize, scalar: Scalar| Row { symbol, children: vec![], scalar };
    let over =
        |symbol: usize, children: &[usize]| Row { symbol, children: children.to_vec(), scalar: Scalar::Bare };
    let mut rows: Vec<Row> = (0..LEAVES).map(|number| leaf(LEAF, Scalar::Count(number as u64))).collect();
    rows.extend(fours().step_by(3).take(FOURS).map(|four| over(FOUR, &four)));
    rows.push(leaf(END, Scalar::Bare));
    for four in (LEAVES..LEAVES + FOURS).rev() {
        rows.push(over(LINK, &[four, rows.len() - 1]));
    }
    Document { rows }
}

/// Every four different leaves, by ascending numbers.
fn fours() -> impl Iterator<Item = [usize; 4]> {
    let masks = (0..1usize << LEAVES).filter(|mask| mask.count_ones() == 4);
    masks.map(|mask| {
        let mut chosen = (0..LEAVES).filter(|leaf| mask >> leaf & 1 == 1);
        std::array::from_fn(|_| chosen.next().expect("four bits are set"))
    })
}

#[cfg(test)]
mod tests {
    use super::*;
    use reference::limits::MAX_ROOM;
    use reference::membership::{all_annotations, judge};
    use reference::{check_automaton, check_document};

    #[test]
    fn the_list_is_let_in_and_hundreds_of_rules_never_hold() {
        let (mut set, document) = (crowded_set(), crowded_document());
        assert!(check_automaton(&set.encode()) == Ok(set.clone()));
        assert!(check_document(&set.encode(), &document.cells()).is_ok());
        assert_eq!((set.rules.len(), document.rows.len()), (993, 313));
        let judgement = judge(&set, &document, MAX_ROOM).expect("there is room");
        assert!(judgement.is_yes());
        assert_eq!(judgement.annotations, LEAVES * ON_LEAVES + 2 * FOURS + 1);
        let annotations = all_annotations(&set, &document);
        let never = [with_a_state_missing(), with_a_clash(), with_a_rest_missing()].concat();
        set.rules.retain(|rule| !never.contains(rule));
        assert_eq!(set.rules.len(), 993 - 750);
        assert!(all_annotations(&set, &document) == annotations);
    }
}
