//! Written runs, sound ones of many lengths and damaged ones, for refusals 21 to 26.

use std::collections::HashMap;

use reference::limits::{MAX_STEPS, STEP_CELLS, UNUSED};
use reference::membership::judge;
use reference::run::run_cells;
use reference::{Automaton, Document, Step};

use crate::Random;

/// How many annotations the search for a run may need here.
const ROOM: usize = 300;

/// The cells of a run on a document, sound where the document is let in and luck has it.
pub fn lent(
    random: &mut Random,
    automaton: &Automaton,
    document: &Document,
    damaged_percent: usize,
) -> Vec<u16> {
    let mut run = some_run(random, automaton, document);
    if random.percent(50) {
        let budget = random.pick(&[run.len() + 1, run.len() + 3, 30, 200]);
        run = unfolded(&run, budget);
    }
    if random.percent(damaged_percent) {
        damaged(random, run)
    } else {
        run_cells(&run)
    }
}

/// A run of the set, or of one that is more lenient about tags or final states (24, 25), or a
/// single step that hardly fits.
fn some_run(random: &mut Random, automaton: &Automaton, document: &Document) -> Vec<Step> {
    let mut lenient = automaton.clone();
    let any_tags = random.percent(45);
    let any_end = random.percent(20);
    for state in &mut lenient.states {
        state.tags = if any_tags { 0 } else { state.tags };
        state.is_final |= any_end;
    }
    if random.percent(10) {
        lenient.rules.iter_mut().for_each(|rule| rule.forgets = u16::MAX);
    }
    run_of(&lenient, document).unwrap_or_else(|| vec![Step { rule: 0, row: 0, children: Vec::new() }])
}

/// A run that a set lets the document in by, if it is found.
fn run_of(automaton: &Automaton, document: &Document) -> Option<Vec<Step>> {
    judge(automaton, document, ROOM).ok().and_then(|judgement| judgement.run)
}

/// Sound steps of runs on some rows, one behind the other and none using another's (25, 26), often with a run of the whole
/// document behind them or alone. Some are those of a set that is more lenient about tags (24).
pub fn beside_each_other(random: &mut Random, automaton: &Automaton, document: &Document) -> Vec<u16> {
    let mut steps = Vec::new();
    for _ in 0..random.below(4) {
        steps = behind(&steps, run_on_some_row(random, automaton, document));
    }
    if steps.is_empty() || random.percent(60) {
        steps = behind(&steps, some_run(random, automaton, document));
    }
    run_cells(&steps)
}

/// The steps that lead to some state on some row, none where there are none. They need not end on the last row, nor in a
/// final state.
fn run_on_some_row(random: &mut Random, automaton: &Automaton, document: &Document) -> Vec<Step> {
    let last = random.below(document.rows.len());
    let end = random.below(automaton.states.len());
    let mut ending = automaton.clone();
    for (number, state) in ending.states.iter_mut().enumerate() {
        state.is_final = number == end;
    }
    run_of(&ending, &Document { rows: document.rows[..=last].to_vec() }).unwrap_or_default()
}

/// Steps, and behind them those of a run, which use none of the first.
fn behind(first: &[Step], run: Vec<Step>) -> Vec<Step> {
    let shift = first.len();
    let shifted = run
        .into_iter()
        .map(|step| Step { children: step.children.iter().map(|child| child + shift).collect(), ..step });
    first.iter().cloned().chain(shifted).collect()
}

/// The same run with steps repeated instead of shared, up to so many steps. Where the run unfolds to
/// at least so many, it comes out with exactly so many.
pub fn unfolded(run: &[Step], budget: usize) -> Vec<Step> {
    let mut unfolder = Unfolder { run, budget, written: HashMap::new(), steps: Vec::new() };
    unfolder.write(run.len() - 1);
    unfolder.steps
}

struct Unfolder<'a> {
    run: &'a [Step],
    /// How many steps may still be begun.
    budget: usize,
    /// For each old step, the new step that last repeated it.
    written: HashMap<usize, usize>,
    steps: Vec<Step>,
}

impl Unfolder<'_> {
    fn write(&mut self, old: usize) -> usize {
        if self.budget == 0 {
            if let Some(&step) = self.written.get(&old) {
                return step;
            }
        }
        self.budget = self.budget.saturating_sub(1);
        let step = &self.run[old];
        let children = step.children.iter().map(|&child| self.write(child)).collect();
        self.steps.push(Step { rule: step.rule, row: step.row, children });
        self.written.insert(old, self.steps.len() - 1);
        self.steps.len() - 1
    }
}

/// The cells of a run with one to three things changed; a change may turn out harmless.
fn damaged(random: &mut Random, run: Vec<Step>) -> Vec<u16> {
    let mut run = run;
    match random.below(8) {
        0 | 1 => add_an_unused_step(random, &mut run),
        2 => run.truncate(random.between(1, run.len())),
        3 if random.percent(10) => run.resize(MAX_STEPS + 1, run[0].clone()),
        _ => {}
    }
    let mut cells = run_cells(&run);
    for _ in 0..random.pick(&[0, 1, 1, 1, 2, 3]) {
        damage_once(random, &mut cells);
    }
    cells
}

/// Repeats a step just after itself and lets no later step use the repetition (26).
fn add_an_unused_step(random: &mut Random, run: &mut Vec<Step>) {
    let number = random.below(run.len());
    for later in &mut run[number + 1..] {
        for child in later.children.iter_mut().filter(|child| **child > number) {
            *child += 1;
        }
    }
    run.insert(number, run[number].clone());
}

fn damage_once(random: &mut Random, cells: &mut Vec<u16>) {
    match random.below(12) {
        0 => cells.truncate(random.below(cells.len() + 1)),
        1 => cells.extend([UNUSED, 0, 1].iter().take(random.between(1, 3))),
        2 => cells.clear(),
        _ if cells.len() < STEP_CELLS => {}
        3 => copy_a_step(random, cells),
        4 | 5 => change_cell(random, cells, 0, 2),
        _ => change_cell(random, cells, 2, 4),
    }
}

/// Changes a cell of some step, one of `count` from cell `from` on.
fn change_cell(random: &mut Random, cells: &mut [u16], from: usize, count: usize) {
    let step = random.below(cells.len() / STEP_CELLS);
    let at = STEP_CELLS * step + from + random.below(count);
    cells[at] = random.telling_number(cells[at]);
}

/// Writes one step's cells over another's.
fn copy_a_step(random: &mut Random, cells: &mut [u16]) {
    let steps = cells.len() / STEP_CELLS;
    let from = STEP_CELLS * random.below(steps);
    let to = STEP_CELLS * random.below(steps);
    cells.copy_within(from..from + STEP_CELLS, to);
}
