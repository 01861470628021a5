//! Judging by annotations from the bottom up that remembers: for a rule on a row, the memories of the first children
//! joined are kept once each, with the first choice of annotations that gives them, and none is followed twice.

use std::collections::HashSet;
use std::hash::{BuildHasherDefault, Hasher};
use std::mem;
use std::ops::Range;

use super::annotation::{accepting_run, read, rules_of, Annotation, Memory};
use super::set::{Rule, Set};
use super::table::Row;
use super::UNUSED;

/// The cells of an accepting run where there is one, or the number of a refusal.
pub fn membership(set: &[u8], rows: &[u16], room: usize) -> Result<Option<Vec<u16>>, u8> {
    let (set, rows) = read(set, rows)?;
    if set.tags <= 8 {
        judged::<8>(&set, &rows, room)
    } else {
        judged::<16>(&set, &rows, room)
    }
}

/// The same for a set and rows that are sound, with memories of so many tags.
fn judged<const TAGS: usize>(set: &Set, rows: &[Row], room: usize) -> Result<Option<Vec<u16>>, u8> {
    let annotations = Engine::<TAGS>::new(set, rows, room).annotate()?;
    Ok(accepting_run(set, rows, &annotations))
}

/// The annotations of a row in one state, by their numbers.
struct Group {
    state: u16,
    numbers: Range<u16>,
}

/// The memories of some first children joined into one, and the first choice of an annotation for each that gives it.
struct Joined<const TAGS: usize> {
    memory: Memory<TAGS>,
    children: [u16; 4],
}

struct Engine<'a, const TAGS: usize> {
    set: &'a Set,
    rows: &'a [Row],
    rules_of: Vec<Range<usize>>,
    /// The annotations of the rows that are done, those of a row by their states.
    annotations: Vec<Annotation<TAGS>>,
    /// The groups of all rows that are done, and for each row its own.
    groups: Vec<Group>,
    groups_on: Vec<Range<usize>>,
    /// The annotations of the row at hand.
    fresh: Fresh<TAGS>,
    /// For each child of the row at hand and each state, the child's annotations in that state.
    below: [Vec<Range<u16>>; 4],
    /// The annotations that may be chosen for a child, the memories joined before it, and those joined with it.
    choices: Vec<(u16, Memory<TAGS>)>,
    joined: Vec<Joined<TAGS>>,
    longer: Vec<Joined<TAGS>>,
    /// The memories in `longer`.
    met: FastSet<Memory<TAGS>>,
}

impl<'a, const TAGS: usize> Engine<'a, TAGS> {
    fn new(set: &'a Set, rows: &'a [Row], room: usize) -> Engine<'a, TAGS> {
        Engine {
            set,
            rows,
            rules_of: rules_of(set),
            annotations: Vec::new(),
            groups: Vec::new(),
            groups_on: Vec::with_capacity(rows.len()),
            fresh: Fresh { room, annotations: Vec::new(), known: FastSet::default() },
            below: std::array::from_fn(|_| vec![0..0; set.states.len()]),
            choices: Vec::new(),
            joined: Vec::new(),
            longer: Vec::new(),
            met: FastSet::default(),
        }
    }

    /// All annotations, row by row, or 31.
    fn annotate(mut self) -> Result<Vec<Annotation<TAGS>>, u8> {
        for (number, row) in self.rows.iter().enumerate() {
            self.look_below(row, |group| group.numbers.clone());
            for rule in self.rules_of[usize::from(row.symbol)].clone() {
                self.use_rule(number as u16, rule as u16)?;
            }
            self.look_below(row, |_| 0..0);
            self.finish_row();
        }
        Ok(self.annotations)
    }

    /// Notes for each child of a row and each state that the child is in the numbers given.
    fn look_below(&mut self, row: &Row, numbers: impl Fn(&Group) -> Range<u16>) {
        for (below, &child) in self.below.iter_mut().zip(row.used()) {
            for group in &self.groups[self.groups_on[usize::from(child)].clone()] {
                below[usize::from(group.state)] = numbers(group);
            }
        }
    }

    /// Adds the annotations that a rule gives on a row: none where a child is not in the state asked.
    fn use_rule(&mut self, row: u16, rule: u16) -> Result<(), u8> {
        let states = self.set.rules[usize::from(rule)].used();
        let mut asked = [const { 0..0 }; 4];
        for ((place, below), &state) in asked.iter_mut().zip(&self.below).zip(states) {
            let numbers = below[usize::from(state)].clone();
            if numbers.is_empty() {
                return Ok(());
            }
            *place = numbers;
        }
        let target = Target::new(self.set, row, rule);
        let Some((last, first)) = asked[..states.len()].split_last() else {
            return self.fresh.add(&target, [UNUSED; TAGS], [UNUSED; 4]);
        };
        self.joined.clear();
        self.joined.push(Joined { memory: [UNUSED; TAGS], children: [UNUSED; 4] });
        for (place, numbers) in first.iter().enumerate() {
            self.choose_from(numbers, target.refused);
            self.join_with(place);
            if self.joined.is_empty() {
                return Ok(());
            }
        }
        self.choose_from(last, target.refused);
        self.join_last(first.len(), &target)
    }

    /// Takes for choices those of a child's annotations that name no tag that is refused.
    fn choose_from(&mut self, numbers: &Range<u16>, refused: u16) {
        let annotations = &self.annotations[usize::from(numbers.start)..usize::from(numbers.end)];
        let numbered = numbers.clone().zip(annotations.iter().map(|annotation| annotation.memory));
        self.choices.clear();
        self.choices.extend(numbered.filter(|(_, memory)| refused == 0 || !names_any(memory, refused)));
    }

    /// Joins every choice for the child at a place with what the children before it give, and keeps each memory once.
    fn join_with(&mut self, place: usize) {
        // The memories of one group differ, and so they do when nothing is joined with them.
        let all_differ = place == 0 || self.joined.len() * self.choices.len() == 1;
        self.longer.clear();
        self.met.clear();
        for Joined { memory, children } in &self.joined {
            for (number, below) in &self.choices {
                let Some(memory) = join(memory, below) else { continue };
                if all_differ || self.met.insert(memory) {
                    let mut children = *children;
                    children[place] = *number;
                    self.longer.push(Joined { memory, children });
                }
            }
        }
        mem::swap(&mut self.joined, &mut self.longer);
    }

    /// Joins every choice for the last child with what the others give, and adds what the rule makes of it.
    fn join_last(&mut self, place: usize, target: &Target<TAGS>) -> Result<(), u8> {
        for Joined { memory, children } in &self.joined {
            for (number, below) in &self.choices {
                if let Some(memory) = join(memory, below) {
                    let mut children = *children;
                    children[place] = *number;
                    self.fresh.add(target, memory, children)?;
                }
            }
        }
        Ok(())
    }

    /// Puts the annotations of the row at hand with the others, group by group.
    fn finish_row(&mut self) {
        let (first_group, fresh) = (self.groups.len(), &mut self.fresh.annotations);
        fresh.sort_by_key(|annotation| annotation.state);
        let mut start = self.annotations.len() as u16;
        for group in fresh.chunk_by(|one, next| one.state == next.state) {
            let end = start + group.len() as u16;
            self.groups.push(Group { state: group[0].state, numbers: start..end });
            start = end;
        }
        self.groups_on.push(first_group..self.groups.len());
        self.fresh.room -= fresh.len();
        self.annotations.append(fresh);
        self.fresh.known.clear();
    }
}

/// What a rule makes of the memories of a row's children.
struct Target<const TAGS: usize> {
    row: u16,
    rule: u16,
    state: u16,
    /// The tags that no child may name: they go to the row, and children name lower rows only.
    refused: u16,
    /// `UNUSED` for each tag that the rule forgets, and 0 for the others.
    dropped: Memory<TAGS>,
    /// The row for each tag of the target.
    own: Memory<TAGS>,
}

impl<const TAGS: usize> Target<TAGS> {
    fn new(set: &Set, row: u16, rule: u16) -> Target<TAGS> {
        let Rule { target: state, forgets, .. } = set.rules[usize::from(rule)];
        let tags = set.states[usize::from(state)].tags;
        Target {
            row,
            rule,
            state,
            refused: tags & !forgets,
            dropped: std::array::from_fn(|tag| if forgets >> tag & 1 == 1 { UNUSED } else { 0 }),
            own: std::array::from_fn(|tag| if tags >> tag & 1 == 1 { row } else { UNUSED }),
        }
    }

    /// The memory after the rule, of one that names no tag that is refused.
    fn after(&self, mut memory: Memory<TAGS>) -> Memory<TAGS> {
        for (place, (dropped, &own)) in memory.iter_mut().zip(self.dropped.iter().zip(&self.own)) {
            *place = (*place | dropped).min(own);
        }
        memory
    }
}

/// The annotations of one row, and for how many there is room.
struct Fresh<const TAGS: usize> {
    room: usize,
    annotations: Vec<Annotation<TAGS>>,
    known: FastSet<(u16, Memory<TAGS>)>,
}

impl<const TAGS: usize> Fresh<TAGS> {
    /// Adds what a rule makes of the children's memories joined where it is new, or answers 31.
    fn add(&mut self, target: &Target<TAGS>, joined: Memory<TAGS>, children: [u16; 4]) -> Result<(), u8> {
        let (memory, &Target { row, rule, state, .. }) = (target.after(joined), target);
        if self.known.insert((state, memory)) {
            if self.annotations.len() == self.room {
                return Err(31);
            }
            self.annotations.push(Annotation { row, state, memory, rule, children });
        }
        Ok(())
    }
}

/// Whether a memory has a row for one of some tags.
fn names_any<const TAGS: usize>(memory: &Memory<TAGS>, tags: u16) -> bool {
    memory.iter().enumerate().any(|(tag, &row)| tags >> tag & 1 == 1 && row != UNUSED)
}

/// Two memories as one, unless a tag gets two rows. `UNUSED` is above every row, so that the lower of two places is the
/// one that is used; all tags are looked at at once.
fn join<const TAGS: usize>(first: &Memory<TAGS>, second: &Memory<TAGS>) -> Option<Memory<TAGS>> {
    let (mut both, mut clash) = (*first, false);
    for (place, &row) in both.iter_mut().zip(second) {
        clash |= (*place != row) & (*place != UNUSED) & (row != UNUSED);
        *place = row.min(*place);
    }
    (!clash).then_some(both)
}

/// A hash set for keys of a few words.
type FastSet<K> = HashSet<K, BuildHasherDefault<Folding>>;

/// A hash that multiplies each word in and folds the product: far shorter than the standard one.
#[derive(Default)]
struct Folding(u64);

impl Folding {
    fn fold(&mut self, word: u64) {
        const FACTOR: u64 = 0x9e37_79b9_7f4a_7c15;
        let product = u128::from(self.0 ^ word) * u128::from(FACTOR);
        self.0 = (product >> 64) as u64 ^ product as u64;
    }
}

impl Hasher for Folding {
    fn write(&mut self, bytes: &[u8]) {
        let (words, rest) = bytes.as_chunks();
        words.iter().for_each(|&word| self.fold(u64::from_le_bytes(word)));
        rest.iter().for_each(|&byte| self.fold(u64::from(byte)));
    }

    /// A state; it is folded with the first word of the memory behind it.
    fn write_u16(&mut self, number: u16) {
        self.0 ^= u64::from(number);
    }

    /// A length, which is the same for all keys of a set.
    fn write_usize(&mut self, _: usize) {}

    fn finish(&self) -> u64 {
        self.0
    }
}
