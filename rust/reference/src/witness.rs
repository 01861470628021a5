//! Dead, or live with a sample (document 01, "Joining, demanding both, and the sample"), refusals 42 and 41.

use crate::automaton::Automaton;
use crate::document::{Document, Row, Scalar};
use crate::limits::ROW_CELLS;
use crate::refusal::{refuse_if, Refusal};
use crate::stored::check_automaton;
use crate::table::TableBuilder;

/// The sample's table where the set is live, nothing where it is dead, for a row space of so many cells.
pub fn witness(set: &[u8], row_cells: usize) -> Result<Option<Document>, Refusal> {
    let automaton = check_automaton(set)?;
    refuse_if(row_cells / ROW_CELLS < automaton.states.len(), 42)?;
    refuse_if(two_states_share_a_tag(&automaton), 41)?;
    Ok(sample(&automaton))
}

fn two_states_share_a_tag(automaton: &Automaton) -> bool {
    (0..automaton.tag_count).any(|tag| automaton.states.iter().filter(|state| state.has_tag(tag)).count() > 1)
}

/// How a state got its mark: in which round, by which rule.
#[derive(Clone, Copy)]
struct Mark {
    round: usize,
    rule: usize,
}

/// The tree of the final state marked first, the lowest number on a tie.
fn sample(automaton: &Automaton) -> Option<Document> {
    let marks = mark_in_rounds(automaton);
    let (_, state) = (0..automaton.states.len())
        .filter(|&state| automaton.states[state].is_final)
        .filter_map(|state| marks[state].map(|mark| (mark.round, state)))
        .min()?;
    let mut builder = SampleBuilder {
        automaton,
        marks: &marks,
        table: TableBuilder::with_limit(automaton.states.len()),
        row_of_state: vec![None; automaton.states.len()],
    };
    builder.build(state);
    Some(builder.table.finish())
}

/// Marks states round by round until a round adds none.
fn mark_in_rounds(automaton: &Automaton) -> Vec<Option<Mark>> {
    let mut marks = vec![None; automaton.states.len()];
    for round in 1.. {
        let added = marks_of_round(automaton, &marks, round);
        if added.is_empty() {
            break;
        }
        for (state, mark) in added {
            marks[state] = Some(mark);
        }
    }
    marks
}

/// The marks that one round adds to those of earlier rounds: for each state the first rule in stored order.
fn marks_of_round(automaton: &Automaton, marks: &[Option<Mark>], round: usize) -> Vec<(usize, Mark)> {
    let mut added: Vec<(usize, Mark)> = Vec::new();
    for (number, rule) in automaton.rules.iter().enumerate() {
        let is_new = marks[rule.target].is_none() && added.iter().all(|(state, _)| *state != rule.target);
        if is_new && rule.children.iter().all(|&child| marks[child].is_some()) {
            added.push((rule.target, Mark { round, rule: number }));
        }
    }
    added
}

/// Builds the sample's rows. A state is built once, so a tree that doubles at each level stays small.
struct SampleBuilder<'a> {
    automaton: &'a Automaton,
    marks: &'a [Option<Mark>],
    table: TableBuilder,
    row_of_state: Vec<Option<usize>>,
}

impl SampleBuilder<'_> {
    /// The row of a marked state's tree, its children's first, from left to right.
    fn build(&mut self, state: usize) -> usize {
        if let Some(row) = self.row_of_state[state] {
            return row;
        }
        let mark = self.marks[state].expect("only marked states are built");
        let rule = &self.automaton.rules[mark.rule];
        let children = rule.children.iter().map(|&child| self.build(child)).collect();
        let row = Row { symbol: rule.symbol, children, scalar: Scalar::Bare };
        let number = self.table.place(row).expect("there is at most one tree for each state");
        self.row_of_state[state] = Some(number);
        number
    }
}
