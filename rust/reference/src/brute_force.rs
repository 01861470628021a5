//! A second opinion for small documents: every labelling of the unfolded tree's positions is tried.
//!
//! This follows the definition of a run in document 01, "Runs", and that of isolation in source document 000, section 3,
//! to the letter and uses no annotations, so an error in the bottom-up method shows up as a difference.

use std::collections::HashSet;

use crate::automaton::{Automaton, Rule};
use crate::document::{Document, Scalar};
use crate::membership::Annotation;
use crate::memory::EMPTY_MEMORY;

/// A tree, unfolded: equal subtrees are separate values.
#[derive(Clone, Debug, PartialEq, Eq)]
pub struct Tree {
    pub symbol: usize,
    pub scalar: Scalar,
    pub children: Vec<Tree>,
}

impl Tree {
    /// The tree of a row. Its size may be exponential in the table's.
    pub fn of_row(document: &Document, row: usize) -> Tree {
        let row = &document.rows[row];
        let children = row.children.iter().map(|&child| Tree::of_row(document, child)).collect();
        Tree { symbol: row.symbol, scalar: row.scalar, children }
    }

    pub fn size(&self) -> usize {
        1 + self.children.iter().map(Tree::size).sum::<usize>()
    }

    pub fn height(&self) -> usize {
        1 + self.children.iter().map(Tree::height).max().unwrap_or(0)
    }
}

/// Whether an accepting run on the tree exists.
pub fn lets_in(automaton: &Automaton, tree: &Tree) -> bool {
    let positions = Positions::of(tree);
    every_labelling(positions.subtrees.len(), automaton.states.len())
        .filter_map(|states| Run::of(automaton, &positions, states))
        .any(|run| run.is_accepting())
}

/// The annotations of all rows, each read off from the runs on the row's tree.
pub fn annotations(automaton: &Automaton, document: &Document) -> HashSet<Annotation> {
    let trees: Vec<Tree> = (0..document.rows.len()).map(|row| Tree::of_row(document, row)).collect();
    let mut found = HashSet::new();
    for (row, tree) in trees.iter().enumerate() {
        let positions = Positions::of(tree);
        let labellings = every_labelling(positions.subtrees.len(), automaton.states.len());
        let runs = labellings.filter_map(|states| Run::of(automaton, &positions, states));
        found.extend(runs.filter(Run::tags_agree).map(|run| run.annotation(&trees, row)));
    }
    found
}

/// The positions of a tree, root first and each before those below it, with their subtrees and their children's positions.
struct Positions<'a> {
    subtrees: Vec<&'a Tree>,
    children: Vec<Vec<usize>>,
}

impl<'a> Positions<'a> {
    fn of(tree: &'a Tree) -> Positions<'a> {
        let mut positions = Positions { subtrees: Vec::new(), children: Vec::new() };
        positions.add(tree);
        positions
    }

    fn add(&mut self, tree: &'a Tree) -> usize {
        let position = self.subtrees.len();
        self.subtrees.push(tree);
        self.children.push(Vec::new());
        let children = tree.children.iter().map(|child| self.add(child)).collect();
        self.children[position] = children;
        position
    }

    /// Whether a position is strictly below another: it is one of those that come next, as many as the other's tree has.
    fn is_below(&self, position: usize, other: usize) -> bool {
        (other + 1..other + self.subtrees[other].size()).contains(&position)
    }
}

/// Every way of giving each position a state.
fn every_labelling(positions: usize, states: usize) -> impl Iterator<Item = Vec<usize>> {
    let count = states.pow(positions as u32);
    (0..count).map(move |number| {
        let mut rest = number;
        (0..positions)
            .map(|_| {
                let state = rest % states;
                rest /= states;
                state
            })
            .collect()
    })
}

/// A labelling that respects the rules. Symbol and states tell which rule is used at a position.
struct Run<'a> {
    automaton: &'a Automaton,
    positions: &'a Positions<'a>,
    states: Vec<usize>,
    rules: Vec<&'a Rule>,
}

impl<'a> Run<'a> {
    /// The run with these states, if at each position a rule leads from the children's states to its state.
    fn of(automaton: &'a Automaton, positions: &'a Positions<'a>, states: Vec<usize>) -> Option<Run<'a>> {
        let is_used = |rule: &&Rule, position: usize| {
            let children = positions.children[position].iter().map(|&child| states[child]);
            rule.symbol == positions.subtrees[position].symbol
                && rule.target == states[position]
                && rule.children.iter().copied().eq(children)
        };
        let rule_at = |position| automaton.rules.iter().find(|rule| is_used(rule, position));
        let rules = (0..states.len()).map(rule_at).collect::<Option<Vec<&Rule>>>()?;
        Some(Run { automaton, positions, states, rules })
    }

    fn is_accepting(&self) -> bool {
        self.automaton.states[self.states[0]].is_final && self.tags_agree()
    }

    /// The positions whose state carries a tag.
    fn tagged(&self, tag: usize) -> Vec<usize> {
        let carries = |position: &usize| self.automaton.states[self.states[*position]].has_tag(tag);
        (0..self.states.len()).filter(carries).collect()
    }

    /// Whether for each tag all subtrees at positions whose state carries that tag are equal, but for those between
    /// which the tag is forgotten.
    fn tags_agree(&self) -> bool {
        let subtree = |position: usize| self.positions.subtrees[position];
        (0..self.automaton.tag_count).all(|tag| {
            let tagged = self.tagged(tag);
            let pairs = tagged.iter().flat_map(|&one| tagged.iter().map(move |&other| (one, other)));
            let mut bound = pairs.filter(|&(one, other)| !self.are_isolated(tag, one, other));
            bound.all(|(one, other)| subtree(one) == subtree(other))
        })
    }

    /// Whether at some position the tag is forgotten and exactly one of the two is strictly below it.
    fn are_isolated(&self, tag: usize, one: usize, other: usize) -> bool {
        let is_below = |position, above| self.positions.is_below(position, above);
        self.forgetting(tag).any(|above| is_below(one, above) != is_below(other, above))
    }

    /// The positions whose rule forgets a tag.
    fn forgetting(&self, tag: usize) -> impl Iterator<Item = usize> + '_ {
        (0..self.rules.len()).filter(move |&position| self.rules[position].forgets_tag(tag))
    }

    /// The annotation that the run leaves: the root's state, and for each tag the row of a subtree whose position carries
    /// it and is strictly below none that forgets it.
    fn annotation(&self, trees: &[Tree], row: usize) -> Annotation {
        let mut memory = EMPTY_MEMORY;
        for (tag, place) in memory.iter_mut().enumerate().take(self.automaton.tag_count) {
            let is_kept = |position: &usize| {
                !self.forgetting(tag).any(|above| self.positions.is_below(*position, above))
            };
            let kept = self.tagged(tag).into_iter().find(is_kept);
            *place = kept
                .and_then(|position| trees.iter().position(|tree| tree == self.positions.subtrees[position]));
        }
        Annotation { row, state: self.states[0], memory }
    }
}
