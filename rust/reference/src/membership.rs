//! Judging (document 01, "Runs", and document 02, Wish 9): all annotations from the bottom up, the decision, refusals 32
//! and 31.

use std::collections::{BTreeMap, HashSet};

use crate::automaton::{Automaton, Rule};
use crate::document::{check_document, Document};
use crate::limits::{ANNOTATION_CELLS, MAX_ROOM, STEP_CELLS};
use crate::memory::{after_rule, join, Memory, EMPTY_MEMORY};
use crate::refusal::{refuse_if, Refusal};
use crate::run::Step;

/// A row, a state and a memory; it says that the row's tree has a run in that state that leaves that memory.
#[derive(Clone, Debug, PartialEq, Eq, Hash, PartialOrd, Ord)]
pub struct Annotation {
    pub row: usize,
    pub state: usize,
    pub memory: Memory,
}

/// What a judging that is not refused finds.
#[derive(Clone, Debug, PartialEq, Eq)]
pub struct Judgement {
    /// An accepting run where there is one. The paper leaves free which; this is one with a step
    /// for each annotation that it needs.
    pub run: Option<Vec<Step>>,
    /// How many distinct annotations there are over all rows.
    pub annotations: usize,
}

impl Judgement {
    pub fn is_yes(&self) -> bool {
        self.run.is_some()
    }
}

/// The room of a work space: whole annotations, at most 4,096.
pub fn room(work_cells: usize) -> usize {
    (work_cells / ANNOTATION_CELLS).min(MAX_ROOM)
}

/// Judges a document: set, table, 32, 31, then yes or no. The spaces are given by their lengths in cells.
pub fn membership(
    set: &[u8],
    rows: &[u16],
    work_cells: usize,
    run_cells: usize,
) -> Result<Judgement, Refusal> {
    let (automaton, document) = check_document(set, rows)?;
    let room = room(work_cells);
    refuse_if(run_cells / STEP_CELLS < room, 32)?;
    judge(&automaton, &document, room)
}

/// The decision, or 31 where there are more distinct annotations over all rows than the room.
pub fn judge(automaton: &Automaton, document: &Document, room: usize) -> Result<Judgement, Refusal> {
    let mut annotations = Annotations::new(automaton, document);
    for row in 0..document.rows.len() {
        for rule in 0..automaton.rules.len() {
            annotations.use_rule(row, rule);
            refuse_if(annotations.all.len() > room, 31)?;
        }
    }
    let accepting = annotations.accepting();
    Ok(Judgement {
        run: accepting.map(|index| annotations.run_to(index)),
        annotations: annotations.all.len(),
    })
}

/// An annotation with the rule and the children's annotations (by index) that first gave it.
struct Derived {
    annotation: Annotation,
    rule: usize,
    children: Vec<usize>,
}

/// The annotations found so far.
struct Annotations<'a> {
    automaton: &'a Automaton,
    document: &'a Document,
    all: Vec<Derived>,
    seen: HashSet<Annotation>,
    /// For each row, the indexes of its annotations.
    on_row: Vec<Vec<usize>>,
}

impl<'a> Annotations<'a> {
    fn new(automaton: &'a Automaton, document: &'a Document) -> Annotations<'a> {
        let on_row = vec![Vec::new(); document.rows.len()];
        Annotations { automaton, document, all: Vec::new(), seen: HashSet::new(), on_row }
    }

    /// Adds every annotation that a rule gives on a row whose children have all of theirs.
    fn use_rule(&mut self, row: usize, rule_number: usize) {
        let rule = &self.automaton.rules[rule_number];
        if rule.symbol != self.document.rows[row].symbol {
            return;
        }
        for (joined, children) in self.joined_memories(row, rule) {
            if let Some(memory) = after_rule(self.automaton, rule, row, &joined) {
                let annotation = Annotation { row, state: rule.target, memory };
                self.add(Derived { annotation, rule: rule_number, children });
            }
        }
    }

    /// Every memory that joins one annotation for each child in the state that the rule asks, with
    /// the annotations that first gave it.
    fn joined_memories(&self, row: usize, rule: &Rule) -> BTreeMap<Memory, Vec<usize>> {
        let mut joined = BTreeMap::from([(EMPTY_MEMORY, Vec::new())]);
        for (&child_row, &child_state) in self.document.rows[row].children.iter().zip(&rule.children) {
            let mut longer = BTreeMap::new();
            for (memory, chosen) in &joined {
                for &index in &self.on_row[child_row] {
                    let child = &self.all[index].annotation;
                    if child.state != child_state {
                        continue;
                    }
                    if let Some(both) = join(memory, &child.memory) {
                        longer.entry(both).or_insert_with(|| [&chosen[..], &[index]].concat());
                    }
                }
            }
            joined = longer;
        }
        joined
    }

    fn add(&mut self, derived: Derived) {
        if self.seen.insert(derived.annotation.clone()) {
            self.on_row[derived.annotation.row].push(self.all.len());
            self.all.push(derived);
        }
    }

    /// The first annotation of the last row in a final state.
    fn accepting(&self) -> Option<usize> {
        let on_last = &self.on_row[self.document.last()];
        let is_final = |index: &usize| {
            let state = self.all[*index].annotation.state;
            self.automaton.states[state].is_final
        };
        on_last.iter().copied().find(is_final)
    }

    /// The run behind an annotation: a step for each annotation that it rests on, in the order found.
    fn run_to(&self, goal: usize) -> Vec<Step> {
        let mut needed = vec![false; goal + 1];
        needed[goal] = true;
        for index in (0..=goal).rev() {
            if needed[index] {
                self.all[index].children.iter().for_each(|&child| needed[child] = true);
            }
        }
        let mut step_of = vec![0; goal + 1];
        let mut run = Vec::new();
        for index in (0..=goal).filter(|&index| needed[index]) {
            let derived = &self.all[index];
            step_of[index] = run.len();
            run.push(Step {
                rule: derived.rule,
                row: derived.annotation.row,
                children: derived.children.iter().map(|&child| step_of[child]).collect(),
            });
        }
        run
    }
}

/// All distinct annotations, for tests that hold them against another way of finding them.
pub fn all_annotations(automaton: &Automaton, document: &Document) -> HashSet<Annotation> {
    let mut annotations = Annotations::new(automaton, document);
    for row in 0..document.rows.len() {
        for rule in 0..automaton.rules.len() {
            annotations.use_rule(row, rule);
        }
    }
    annotations.seen
}
