//! The library's judging against the reference's where the memories of three or four children meet, so that what some
//! children leave repeats; where rules forget, and where a tag of the target clashes at the last step. Each document is
//! judged with a room that is exactly enough, with one too few and with too short a run space, in work spaces full of
//! junk.

use std::collections::{BTreeMap, BTreeSet};

use compare::answer::Answer;
use compare::calls::membership_in;
use compare::lent::Lent;
use compare::tally::Tally;
use generate::{meeting, Random};
use reference::limits::{ANNOTATION_CELLS, STEP_CELLS};
use reference::membership::{all_annotations, judge};
use reference::memory::{after_rule, join, Memory, EMPTY_MEMORY};
use reference::{Automaton, Document, Rule};

/// Documents with more annotations are judged with room for so many only.
const MOST: usize = 120;

/// A work space of so many cells that holds the usual junk, nothing but 65535, or random numbers.
fn work_space(random: &mut Random, cells: usize) -> Lent<u16> {
    match random.below(3) {
        0 => Lent::of_length(cells),
        1 => Lent::holding(vec![u16::MAX; cells]),
        _ => Lent::holding((0..cells).map(|_| random.word() as u16).collect()),
    }
}

/// Compares a judging with room for so many annotations and run space of so many cells.
fn compared(
    random: &mut Random,
    automaton: &Automaton,
    document: &Document,
    room: usize,
    run: usize,
) -> Answer {
    let (set, rows) = (automaton.encode(), document.cells());
    let work = ANNOTATION_CELLS * room + random.pick(&[0, 0, 1, 31]);
    let reference = reference::membership(&set, &rows, work, run);
    membership_in(work_space(random, work), Lent::of_length(run), &set, &rows, &reference)
}

/// The memories on a document's rows, by row and state.
struct Memories<'a> {
    automaton: &'a Automaton,
    document: &'a Document,
    of: BTreeMap<(usize, usize), Vec<Memory>>,
}

impl Memories<'_> {
    fn new<'a>(automaton: &'a Automaton, document: &'a Document) -> Memories<'a> {
        let mut of: BTreeMap<(usize, usize), Vec<Memory>> = BTreeMap::new();
        for annotation in all_annotations(automaton, document) {
            of.entry((annotation.row, annotation.state)).or_default().push(annotation.memory);
        }
        Memories { automaton, document, of }
    }

    /// The memories that a rule joins on a row, and whether two choices for some children leave the same.
    fn joined(&self, row: usize, rule: &Rule) -> (BTreeSet<Memory>, bool) {
        let (mut joined, mut meet) = (BTreeSet::from([EMPTY_MEMORY]), false);
        for (&child, &state) in self.document.rows[row].children.iter().zip(&rule.children) {
            let below = self.of.get(&(child, state)).map_or(&[][..], Vec::as_slice);
            let pairs = joined.iter().flat_map(|memory| below.iter().map(move |below| (memory, below)));
            let all: Vec<Memory> = pairs.filter_map(|(memory, below)| join(memory, below)).collect();
            let different: BTreeSet<Memory> = all.iter().copied().collect();
            meet |= different.len() < all.len();
            joined = different;
        }
        (joined, meet)
    }

    fn rules_on(&self, row: usize) -> impl Iterator<Item = &Rule> {
        let symbol = self.document.rows[row].symbol;
        self.automaton.rules.iter().filter(move |rule| rule.symbol == symbol)
    }

    /// Whether somewhere two choices for some children of a row leave the same memory.
    fn meet(&self) -> bool {
        let meet_on = |row: usize| self.rules_on(row).any(|rule| self.joined(row, rule).1);
        (0..self.document.rows.len()).any(meet_on)
    }

    /// Whether a rule to a final state fails on the last row by the target's tags alone.
    fn clash_at_the_last_step(&self) -> bool {
        let last = self.document.last();
        let mut to_final = self.rules_on(last).filter(|rule| self.automaton.states[rule.target].is_final);
        let clashes = |rule: &Rule, memory: &Memory| after_rule(self.automaton, rule, last, memory).is_none();
        to_final.any(|rule| self.joined(last, rule).0.iter().any(|memory| clashes(rule, memory)))
    }
}

/// What makes an answer worth counting apart.
fn kind(answer: Answer, memories: &Memories) -> &'static str {
    match answer {
        Answer::Value(0) if memories.clash_at_the_last_step() => "no, by the last step",
        Answer::Value(0) if memories.meet() => "no, memories meet",
        Answer::Value(0) => "no",
        _ if memories.meet() => "yes, memories meet",
        _ => "yes",
    }
}

#[test]
fn every_room_that_tells() {
    let mut without = Tally::of("membership, memories that meet");
    let mut forgetting = Tally::of("membership, memories that meet, rules that forget");
    for seed in 0..12_000 {
        let random = &mut Random::new(seed);
        let (automaton, document) = (meeting::set(random), meeting::document(random));
        let tally = if automaton.forgets() { &mut forgetting } else { &mut without };
        let Ok(judgement) = judge(&automaton, &document, MOST) else {
            tally.count(compared(random, &automaton, &document, MOST, STEP_CELLS * MOST), |_| "too many");
            continue;
        };
        let room = judgement.annotations;
        let steps = STEP_CELLS * room;
        let answer = compared(random, &automaton, &document, room, steps);
        let memories = Memories::new(&automaton, &document);
        tally.count(answer, |_| kind(answer, &memories));
        if room > 0 {
            tally.count(compared(random, &automaton, &document, room - 1, steps), |_| "one too few");
            let short = random.pick(&[1, 5, 6]);
            tally.count(compared(random, &automaton, &document, room, steps - short), |_| "short");
        }
        let more = room + random.between(1, 40);
        assert_eq!(compared(random, &automaton, &document, more, STEP_CELLS * more), answer, "seed {seed}");
    }
    let kinds = ["no, by the last step", "no, memories meet", "no", "yes, memories meet", "yes"];
    without.must_reach(10_000, 200, &[31, 32], &kinds);
    forgetting.must_reach(6000, 200, &[31, 32], &kinds);
}
