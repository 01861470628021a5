//! A count of answers, so that a comparison whose inputs never reach some answer is found hollow.

use std::collections::BTreeMap;

use crate::answer::Answer;

/// How often each refusal number and each kind of value came.
pub struct Tally {
    function: &'static str,
    numbers: BTreeMap<u8, usize>,
    values: BTreeMap<&'static str, usize>,
}

impl Tally {
    pub fn of(function: &'static str) -> Tally {
        Tally { function, numbers: BTreeMap::new(), values: BTreeMap::new() }
    }

    /// Counts an answer; a value is counted under a word for its kind.
    pub fn count(&mut self, answer: Answer, kind: impl Fn(u64) -> &'static str) {
        match answer {
            Answer::Refused { number, .. } => *self.numbers.entry(number).or_default() += 1,
            Answer::Value(value) => *self.values.entry(kind(value)).or_default() += 1,
        }
    }

    pub fn total(&self) -> usize {
        self.numbers.values().sum::<usize>() + self.values.values().sum::<usize>()
    }

    /// Stops unless there were so many comparisons in all, every number and kind came at least so
    /// often, and no other number came.
    pub fn must_reach(&self, total: usize, least: usize, numbers: &[u8], kinds: &[&str]) {
        let Tally { function, numbers: by_number, values: by_kind } = self;
        println!("{function}: {} comparisons, refusals {by_number:?}, values {by_kind:?}", self.total());
        assert!(self.total() >= total, "{function}: only {} comparisons", self.total());
        for number in numbers {
            let count = by_number.get(number).copied().unwrap_or(0);
            assert!(count >= least, "{function}: number {number} came only {count} times");
        }
        for kind in kinds {
            let count = by_kind.get(kind).copied().unwrap_or(0);
            assert!(count >= least, "{function}: `{kind}` came only {count} times");
        }
        let strange: Vec<&u8> = by_number.keys().filter(|number| !numbers.contains(number)).collect();
        assert!(strange.is_empty(), "{function}: numbers {strange:?} are not this function's");
    }
}

/// The refusals of a set.
pub const SET: [u8; 8] = [1, 2, 3, 4, 5, 6, 7, 9];
/// The refusals of a table.
pub const TABLE: [u8; 7] = [11, 12, 13, 14, 15, 16, 17];
/// The refusals of a run.
pub const RUN: [u8; 6] = [21, 22, 23, 24, 25, 26];
/// The refusals of name lists.
pub const NAMES: [u8; 2] = [61, 62];
/// The refusals of text.
pub const TEXT: [u8; 5] = [63, 64, 65, 66, 67];
/// The refusals of JSON and its key list.
pub const JSON: [u8; 6] = [64, 67, 71, 72, 73, 74];
