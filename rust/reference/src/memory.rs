//! Memories (document 01, "Runs", and document 02, Wish 9): the rows that tags have been given, and what a rule on a row
//! makes of those of its children.

use crate::automaton::{Automaton, Rule};
use crate::limits::MAX_TAGS;

/// A memory: the row that each tag has been given, if any.
pub type Memory = [Option<usize>; MAX_TAGS];

/// A memory in which no tag has a row.
pub const EMPTY_MEMORY: Memory = [None; MAX_TAGS];

/// Two memories as one, unless a tag gets two rows.
pub fn join(first: &Memory, second: &Memory) -> Option<Memory> {
    let mut both = *first;
    for (place, &row) in both.iter_mut().zip(second) {
        match (*place, row) {
            (Some(one), Some(other)) if one != other => return None,
            (None, Some(_)) => *place = row,
            _ => {}
        }
    }
    Some(both)
}

/// All memories as one, unless a tag gets two rows.
pub fn join_all<'a>(memories: impl IntoIterator<Item = &'a Memory>) -> Option<Memory> {
    memories.into_iter().try_fold(EMPTY_MEMORY, |joined, memory| join(&joined, memory))
}

/// What a rule on a row makes of the joined memories of the children: the tags that it forgets are dropped, and then the
/// target's are added, unless one of them has been given another row.
pub fn after_rule(automaton: &Automaton, rule: &Rule, row: usize, joined: &Memory) -> Option<Memory> {
    let mut kept = *joined;
    for tag in automaton.tags_forgotten_by(rule) {
        kept[tag] = None;
    }
    let mut own = EMPTY_MEMORY;
    for tag in automaton.tags_of(rule.target) {
        own[tag] = Some(row);
    }
    join(&kept, &own)
}
