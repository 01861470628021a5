//! The fewest rows on which remembering is not enough: a leaf, a row over it, and a root over that row. On a leaf each
//! state leaves one memory; so on two rows a rule has at most one choice, and three are the first to be hard.

use reference::examples::{rule, state};
use reference::limits::MAX_TAGS;
use reference::{Automaton, Document, Row, Rule, Scalar};

/// Symbols: the root and the row below it have four children each.
const ROOT: usize = 0;
const MIDDLE: usize = 1;
const LEAF: usize = 2;

/// Tags that one state of the leaf can carry: any of these four, or the next four, and so on.
const TOGETHER: usize = 4;
const MASKS: usize = 1 << TOGETHER;
/// The state of the row over the leaf, behind those of the leaf, and the first of the root's.
const OVER_THE_LEAF: usize = MAX_TAGS / TOGETHER * MASKS;
const FIRST_ROOT: usize = OVER_THE_LEAF + 1;

/// The state of the leaf that carries of the tags from `TOGETHER * place` on those of a mask.
fn on_leaf(place: usize, mask: usize) -> usize {
    place * MASKS + mask
}

/// The rule by which the row over the leaf remembers the sixteen tags of a mask.
fn remembering(mask: usize) -> Rule {
    let part = |place: usize| on_leaf(place, mask >> (TOGETHER * place) & (MASKS - 1));
    rule(MIDDLE, &[0, 1, 2, 3].map(part), OVER_THE_LEAF)
}

/// The set. The row over the leaf remembers any of the first eight tags, or any of the last eight: 511 memories, of
/// which two children leave 65,536 that are all different. The root asks for four such children by so many rules, each
/// of which forgets every tag.
pub fn three_row_set(root_rules: usize) -> Automaton {
    let half = 1 << (MAX_TAGS / 2);
    let masks = (0..half).chain((1..half).map(|mask| mask << (MAX_TAGS / 2)));
    let mut rules: Vec<Rule> = masks.map(remembering).collect();
    rules.extend((0..OVER_THE_LEAF).map(|target| rule(LEAF, &[], target)));
    let roots = FIRST_ROOT..FIRST_ROOT + root_rules;
    rules.extend(roots.map(|target| rule(ROOT, &[OVER_THE_LEAF; 4], target).forgetting(u16::MAX)));
    rules.sort();
    let tags = |number: usize| ((number % MASKS) << (TOGETHER * (number / MASKS))) as u16;
    let mut states: Vec<_> = (0..OVER_THE_LEAF).map(|number| state(false, tags(number))).collect();
    states.push(state(false, 0));
    states.extend(vec![state(true, 0); root_rules]);
    Automaton { arities: vec![4, 4, 0], states, tag_count: MAX_TAGS, rules }
}

/// The document of three rows.
pub fn three_row_document() -> Document {
    let row =
        |symbol: usize, children: &[usize]| Row { symbol, children: children.to_vec(), scalar: Scalar::Bare };
    Document { rows: vec![row(LEAF, &[]), row(MIDDLE, &[0; 4]), row(ROOT, &[1; 4])] }
}

#[cfg(test)]
mod tests {
    use super::*;
    use reference::membership::judge;
    use reference::{check_automaton, check_document};

    #[test]
    fn three_rows_have_memories_of_any_eight_tags() {
        let set = three_row_set(1);
        assert_eq!(check_automaton(&set.encode()), Ok(set.clone()));
        assert!(check_document(&set.encode(), &three_row_document().cells()).is_ok());
        // The root's rule is left out: the reference takes long for it, too.
        let mut without_root = set.clone();
        without_root.rules.retain(|rule| rule.symbol != ROOT);
        let judgement = judge(&without_root, &three_row_document(), 4096).expect("there is room");
        assert_eq!((judgement.annotations, judgement.is_yes()), (64 + 511, false));
    }
}
