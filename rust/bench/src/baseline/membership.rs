//! Judging by annotations from the bottom up, with a hash set for those that are known: every choice of one annotation
//! for each child is tried.

use std::collections::HashSet;
use std::ops::Range;

use super::annotation::{accepting_run, forget, read, rules_of, Annotation, Memory};
use super::set::{Rule, Set};
use super::table::Row;
use super::UNUSED;

/// The cells of an accepting run where there is one, or the number of a refusal.
pub fn membership(set: &[u8], rows: &[u16], room: usize) -> Result<Option<Vec<u16>>, u8> {
    let (set, rows) = read(set, rows)?;
    if set.tags <= 8 {
        judged::<8>(&set, &rows, room)
    } else {
        judged::<16>(&set, &rows, room)
    }
}

/// The same for a set and rows that are sound, with memories of so many tags.
fn judged<const TAGS: usize>(set: &Set, rows: &[Row], room: usize) -> Result<Option<Vec<u16>>, u8> {
    let annotations = Engine::<TAGS>::new(set, rows, room).annotate()?;
    Ok(accepting_run(set, rows, &annotations))
}

struct Engine<'a, const TAGS: usize> {
    set: &'a Set,
    rows: &'a [Row],
    room: usize,
    /// For each symbol the numbers of its rules.
    rules_of: Vec<Range<usize>>,
    annotations: Vec<Annotation<TAGS>>,
    /// For each row that is done its annotations.
    on_row: Vec<Range<usize>>,
    /// The annotations of the row at hand.
    known: HashSet<(u16, Memory<TAGS>)>,
}

impl<'a, const TAGS: usize> Engine<'a, TAGS> {
    fn new(set: &'a Set, rows: &'a [Row], room: usize) -> Engine<'a, TAGS> {
        Engine {
            set,
            rows,
            room,
            rules_of: rules_of(set),
            annotations: Vec::new(),
            on_row: Vec::with_capacity(rows.len()),
            known: HashSet::new(),
        }
    }

    /// All annotations, row by row, or 31.
    fn annotate(mut self) -> Result<Vec<Annotation<TAGS>>, u8> {
        for (number, row) in self.rows.iter().enumerate() {
            let first = self.annotations.len();
            self.known.clear();
            for rule in self.rules_of[usize::from(row.symbol)].clone() {
                let mut chosen = [UNUSED; 4];
                self.choose(number as u16, rule as u16, 0, [UNUSED; TAGS], &mut chosen)?;
            }
            self.on_row.push(first..self.annotations.len());
        }
        Ok(self.annotations)
    }

    /// Tries every annotation for the child at a place and those after it.
    fn choose(
        &mut self,
        row: u16,
        rule: u16,
        place: usize,
        memory: Memory<TAGS>,
        chosen: &mut [u16; 4],
    ) -> Result<(), u8> {
        let (set, rows) = (self.set, self.rows);
        let states = &set.rules[usize::from(rule)].children;
        let Some(&child) = rows[usize::from(row)].used().get(place) else {
            return self.finish(row, rule, memory, *chosen);
        };
        for number in self.on_row[usize::from(child)].clone() {
            let below = &self.annotations[number];
            if below.state != states[place] {
                continue;
            }
            if let Some(joined) = join(&memory, &below.memory) {
                chosen[place] = number as u16;
                self.choose(row, rule, place + 1, joined, chosen)?;
            }
        }
        Ok(())
    }

    /// Drops what the rule forgets from the joined memory and adds the target's tags, and the annotation where it is new.
    fn finish(
        &mut self,
        row: u16,
        rule: u16,
        mut joined: Memory<TAGS>,
        children: [u16; 4],
    ) -> Result<(), u8> {
        let Rule { target: state, forgets, .. } = self.set.rules[usize::from(rule)];
        let tags = self.set.states[usize::from(state)].tags;
        if forgets != 0 {
            forget(&mut joined, forgets);
        }
        let own = std::array::from_fn(|tag| if tags >> tag & 1 == 1 { row } else { UNUSED });
        let Some(memory) = join(&joined, &own) else {
            return Ok(());
        };
        if self.known.insert((state, memory)) {
            if self.annotations.len() == self.room {
                return Err(31);
            }
            self.annotations.push(Annotation { row, state, memory, rule, children });
        }
        Ok(())
    }
}

/// Two memories as one, unless a tag gets two rows.
fn join<const TAGS: usize>(first: &Memory<TAGS>, second: &Memory<TAGS>) -> Option<Memory<TAGS>> {
    let mut both = *first;
    for (place, &row) in both.iter_mut().zip(second) {
        if *place == UNUSED {
            *place = row;
        } else if row != UNUSED && row != *place {
            return None;
        }
    }
    Some(both)
}
