//! What both judges here have in common: annotations and where each comes from, memories, and the run behind a yes.

use std::ops::Range;

use super::set::{self, Set};
use super::table::{self, Row};
use super::UNUSED;

/// For each tag the row that it goes to, or `UNUSED`. Sets of at most 8 tags have memories of half the length.
pub type Memory<const TAGS: usize> = [u16; TAGS];

/// An annotation of a row, with the rule and the children's annotations that first gave it.
pub struct Annotation<const TAGS: usize> {
    pub row: u16,
    pub state: u16,
    pub memory: Memory<TAGS>,
    pub rule: u16,
    pub children: [u16; 4],
}

/// A sound set and its sound rows, or the number of a refusal.
pub fn read(set: &[u8], rows: &[u16]) -> Result<(Set, Vec<Row>), u8> {
    let set = set::read(set)?;
    let rows = table::read(&set, rows)?;
    Ok((set, rows))
}

/// For each symbol the numbers of its rules.
pub fn rules_of(set: &Set) -> Vec<Range<usize>> {
    let start = |symbol: usize| set.rules.partition_point(|rule| usize::from(rule.symbol) < symbol);
    (0..set.arities.len()).map(|symbol| start(symbol)..start(symbol + 1)).collect()
}

/// Drops some tags from a memory.
pub fn forget<const TAGS: usize>(memory: &mut Memory<TAGS>, tags: u16) {
    for (_, place) in memory.iter_mut().enumerate().filter(|(tag, _)| tags >> tag & 1 == 1) {
        *place = UNUSED;
    }
}

/// The run behind the first annotation of the last row in a final state, where there is one.
pub fn accepting_run<const TAGS: usize>(
    set: &Set,
    rows: &[Row],
    annotations: &[Annotation<TAGS>],
) -> Option<Vec<u16>> {
    let is_accepting = |annotation: &Annotation<TAGS>| {
        usize::from(annotation.row) + 1 == rows.len() && set.states[usize::from(annotation.state)].is_final
    };
    annotations.iter().position(is_accepting).map(|goal| run_to(annotations, goal))
}

/// A step for each annotation that the goal rests on, in the order of the annotations.
fn run_to<const TAGS: usize>(annotations: &[Annotation<TAGS>], goal: usize) -> Vec<u16> {
    let mut needed = vec![false; goal + 1];
    needed[goal] = true;
    for number in (0..=goal).rev() {
        if needed[number] {
            let children = annotations[number].children.iter().filter(|&&child| child != UNUSED);
            children.for_each(|&child| needed[usize::from(child)] = true);
        }
    }
    let mut step_of = vec![UNUSED; goal + 1];
    let mut run = Vec::new();
    for number in (0..=goal).filter(|&number| needed[number]) {
        step_of[number] = (run.len() / 6) as u16;
        let Annotation { row, rule, children, .. } = &annotations[number];
        run.extend([*rule, *row]);
        let step = |child: u16| if child == UNUSED { UNUSED } else { step_of[usize::from(child)] };
        run.extend(children.map(step));
    }
    run
}
