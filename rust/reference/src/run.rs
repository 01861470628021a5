//! Written runs (document 01, "Runs", and document 02, Wish 9): the check, refusals 21 to 26, and the lent cells.

use crate::automaton::{Automaton, Rule};
use crate::document::{check_document, Document};
use crate::limits::{MAX_CHILDREN, MAX_STEPS, STEP_CELLS, UNUSED};
use crate::memory::{after_rule, join_all, Memory};
use crate::refusal::{refuse_if, Refusal};

/// A step of a written run: a rule used on a row, on top of one lower step for each child.
#[derive(Clone, Debug, PartialEq, Eq)]
pub struct Step {
    pub rule: usize,
    pub row: usize,
    pub children: Vec<usize>,
}

impl Step {
    /// The step's six cells.
    pub fn cells(&self) -> [u16; STEP_CELLS] {
        let mut cells = [UNUSED; STEP_CELLS];
        cells[0] = self.rule as u16;
        cells[1] = self.row as u16;
        for (place, &child) in self.children.iter().enumerate() {
            cells[2 + place] = child as u16;
        }
        cells
    }
}

/// The lent cells of a run.
pub fn run_cells(run: &[Step]) -> Vec<u16> {
    run.iter().flat_map(Step::cells).collect()
}

/// Checks a written run: the set's numbers first, then the table's, then the run's.
pub fn check_run(set: &[u8], rows: &[u16], run: &[u16]) -> Result<(), Refusal> {
    let (automaton, document) = check_document(set, rows)?;
    check_steps(&automaton, &document, run)
}

/// Checks a run's cells. Each number is tried over all steps before the next one is.
pub fn check_steps(automaton: &Automaton, document: &Document, cells: &[u16]) -> Result<(), Refusal> {
    refuse_if(step_count_is_wrong(cells), 21)?;
    let run = Run { automaton, document, steps: read_steps(cells) };
    refuse_if(run.names_unknown_rule_or_row(), 22)?;
    refuse_if(run.a_step_does_not_fit(), 23)?;
    refuse_if(run.memories().is_none(), 24)?;
    refuse_if(run.ends_wrongly(), 25)?;
    refuse_if(run.has_unused_step(), 26)
}

fn step_count_is_wrong(cells: &[u16]) -> bool {
    let steps = cells.len() / STEP_CELLS;
    !cells.len().is_multiple_of(STEP_CELLS) || steps == 0 || steps > MAX_STEPS
}

/// A step's cells, before it is known that they are sound.
struct LentStep {
    rule: usize,
    row: usize,
    places: [u16; MAX_CHILDREN],
}

fn read_steps(cells: &[u16]) -> Vec<LentStep> {
    cells
        .chunks_exact(STEP_CELLS)
        .map(|step| LentStep {
            rule: usize::from(step[0]),
            row: usize::from(step[1]),
            places: [step[2], step[3], step[4], step[5]],
        })
        .collect()
}

struct Run<'a> {
    automaton: &'a Automaton,
    document: &'a Document,
    steps: Vec<LentStep>,
}

impl Run<'_> {
    fn rule(&self, step: &LentStep) -> &Rule {
        &self.automaton.rules[step.rule]
    }

    fn names_unknown_rule_or_row(&self) -> bool {
        self.steps
            .iter()
            .any(|step| step.rule >= self.automaton.rules.len() || step.row >= self.document.rows.len())
    }

    fn a_step_does_not_fit(&self) -> bool {
        (0..self.steps.len()).any(|number| !self.step_fits(number))
    }

    /// Whether rule and row have one symbol and every step place is as the paper asks.
    fn step_fits(&self, number: usize) -> bool {
        let step = &self.steps[number];
        let symbol = self.rule(step).symbol;
        let (used, unused) = step.places.split_at(self.automaton.arity(symbol));
        symbol == self.document.rows[step.row].symbol
            && (0..used.len()).all(|child| self.child_fits(number, child))
            && unused.iter().all(|&place| place == UNUSED)
    }

    /// Whether a child's step is lower, on the row that the row asks, in the state that the rule asks.
    fn child_fits(&self, number: usize, child: usize) -> bool {
        let step = &self.steps[number];
        let place = usize::from(step.places[child]);
        if place >= number {
            return false;
        }
        let below = &self.steps[place];
        below.row == self.document.rows[step.row].children[child]
            && self.rule(below).target == self.rule(step).children[child]
    }

    /// The memory of each step, from those of its child steps; nothing where a tag gets two rows in some step, whether or
    /// not that step is used later.
    fn memories(&self) -> Option<Vec<Memory>> {
        let mut memories: Vec<Memory> = Vec::with_capacity(self.steps.len());
        for step in &self.steps {
            let below = step.places.iter().filter(|&&place| place != UNUSED);
            let joined = join_all(below.map(|&place| &memories[usize::from(place)]))?;
            memories.push(after_rule(self.automaton, self.rule(step), step.row, &joined)?);
        }
        Some(memories)
    }

    fn ends_wrongly(&self) -> bool {
        let last = &self.steps[self.steps.len() - 1];
        last.row != self.document.last() || !self.automaton.states[self.rule(last).target].is_final
    }

    /// Whether a step, not the last, is used by no later one. Step places are lower, so any user is later.
    fn has_unused_step(&self) -> bool {
        let mut used = vec![false; self.steps.len()];
        for place in self.steps.iter().flat_map(|step| step.places) {
            if place != UNUSED {
                used[usize::from(place)] = true;
            }
        }
        used[..self.steps.len() - 1].contains(&false)
    }
}
