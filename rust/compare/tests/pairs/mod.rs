//! What the comparisons of union and product share.

use compare::answer::Answer;
use compare::case::{Case, Expected, Input};
use compare::lent::Lent;
use compare::tally::{Tally, SET};
use generate::{pairs, set_bytes, Random};
use reference::examples::{rule, set_g, state};
use reference::stored::check_with_form;
use reference::{Automaton, Form, Refusal};

/// An operation of the reference: the two sets and the length of the result space.
type ByReference = fn(&[u8], &[u8], usize) -> Result<Vec<u8>, Refusal>;

/// All forms that hold a first set, with all that hold a second one.
fn forms_of(first: &Automaton, second: &Automaton) -> Vec<(Form, Form)> {
    let forms_of = |set: &Automaton| {
        let shortest = set.shortest_form();
        Form::ALL.into_iter().filter(move |&form| form >= shortest)
    };
    forms_of(first).flat_map(|one| forms_of(second).map(move |other| (one, other))).collect()
}

/// One of the two operations, as the library and as the reference have it.
pub struct Operation {
    pub name: &'static str,
    pub library: fn(&[u8], &[u8], &mut [u8]) -> u64,
    pub reference: ByReference,
}

impl Operation {
    /// Compares one call with a result space of so many bytes, and answers what both answered.
    pub fn compare(&self, first: &[u8], second: &[u8], space: usize) -> Answer {
        let inputs =
            [("first", Input::Set(first)), ("second", Input::Set(second)), ("out", Input::Space(space))];
        let mut out = Lent::of_length(space);
        let library = Answer::of_library((self.library)(first, second, out.space()));
        let result = (self.reference)(first, second, space);
        let written = result.clone().unwrap_or_default();
        let reference = Answer::of_reference(result.map(|bytes| bytes.len()));
        let expected = Expected::Exactly(reference);
        let case = Case { function: self.name, inputs: &inputs, library, expected };
        case.same_answer();
        case.same_space("out", &out, &out.with_front(&written));
        reference
    }

    /// A result, and nothing where there is none.
    fn result(&self, first: &[u8], second: &[u8]) -> Vec<u8> {
        (self.reference)(first, second, usize::MAX).unwrap_or_default()
    }

    /// The length of a result, and 0 where there is none.
    fn result_length(&self, first: &[u8], second: &[u8]) -> usize {
        self.result(first, second).len()
    }

    /// Many seeded pairs with spaces around the result's length.
    pub fn compare_seeded_pairs(&self) {
        let mut tally = Tally::of(self.name);
        for seed in 0..24_000 {
            let random = &mut Random::new(seed);
            let (first, second) = pairs::any_pair(random);
            let first = set_bytes::stored(random, &first, 12);
            let second = set_bytes::stored(random, &second, 12);
            let result = self.result(&first, &second);
            let length = result.len();
            let exact = random.pick(&[length, length, length + 1, length + 300, length.saturating_sub(1)]);
            let space = if random.percent(5) { random.below(length + 1) } else { exact };
            tally.count(self.compare(&first, &second, space), |_| kind(&result));
        }
        let numbers = [&SET[..], &[51, 52, 53]].concat();
        let kinds = ["written", "written with rules of 14 bytes", "written with tags to forget"];
        tally.must_reach(20_000, 200, &numbers, &kinds);
    }

    /// Every result space from none to more than enough, for the sets in every form that holds them. The result has rules
    /// of 14 bytes if either set has them.
    pub fn compare_every_space(&self, first: &Automaton, second: &Automaton) {
        for (one, other) in forms_of(first, second) {
            let (first, second) = (first.encode_in(one), second.encode_in(other));
            let length = self.result_length(&first, &second);
            assert!(length > 0);
            let form = check_with_form(&self.result(&first, &second)).map(|(form, _)| form);
            assert_eq!(form, Ok(one.max(other).max(Form::Wide)));
            for space in 0..=length + 20 {
                let expected = if space < length { Some(53) } else { None };
                assert_eq!(self.compare(&first, &second, space).number(), expected, "space {space}");
            }
        }
    }

    /// Whether the result of two sets is refused, with plenty of space. One that is not also fits a space of
    /// just its length, and no space that is a byte shorter. The forms of the two change no number.
    pub fn number(&self, first: &Automaton, second: &Automaton) -> Option<u8> {
        let numbers: Vec<Option<u8>> = forms_of(first, second)
            .into_iter()
            .map(|(one, other)| self.number_of(&first.encode_in(one), &second.encode_in(other)))
            .collect();
        assert!(numbers.iter().all(|number| *number == numbers[0]), "{numbers:?}");
        numbers[0]
    }

    fn number_of(&self, first: &[u8], second: &[u8]) -> Option<u8> {
        let number = self.compare(first, second, 20_000).number();
        if number.is_none() {
            let length = self.result_length(first, second);
            assert_eq!(self.compare(first, second, length).number(), None);
            assert_eq!(self.compare(first, second, length - 1).number(), Some(53));
        }
        number
    }

    /// The first set is tried whole before the second, and both before 51.
    pub fn compare_order_of_places(&self) {
        let sound = of_counts(2, 0, 2).encode();
        let other_symbols = Automaton { arities: vec![0], ..of_counts(2, 0, 0) }.encode();
        let mut unsorted = of_counts(2, 0, 2);
        unsorted.rules.reverse();
        let unsorted = unsorted.encode();
        let number = |first: &[u8], second: &[u8]| self.compare(first, second, 9999).number();
        assert_eq!(number(&unsorted, b""), Some(7));
        assert_eq!(number(b"", &unsorted), Some(1));
        assert_eq!(number(&other_symbols, &unsorted), Some(7));
        assert_eq!(number(&other_symbols, &sound), Some(51));
        assert_eq!(number(&sound, &other_symbols), Some(51));
        assert_eq!(number(&sound, &sound), None);
    }

    /// A tag to forget that a set does not have is found behind its other numbers, and before 51.
    pub fn compare_order_of_forgetting(&self) {
        let (strange, sound) = (forgetting(2, 4).encode(), forgetting(2, 3).encode());
        let number = |first: &[u8], second: &[u8]| self.compare(first, second, 0).number();
        assert_eq!(number(&strange, b""), Some(9));
        assert_eq!(number(b"", &strange), Some(1));
        assert_eq!(number(&sound, &strange), Some(9));
        assert_eq!(number(&strange, &strange), Some(9));
        assert_eq!(number(&set_g().encode(), &strange), Some(9), "before 51");
        assert_eq!(number(&strange, &set_g().encode()), Some(9), "before 51");
        assert_eq!(number(&sound, &set_g().encode()), Some(51));
        assert_eq!(number(&sound, &sound), Some(53));
    }

    /// Masks of all kinds, each set's with each of the other's, with as many tags as there can be and fewer.
    pub fn compare_masks(&self) {
        for (first, second) in [(1, 1), (3, 5), (8, 8), (15, 1), (1, 15), (16, 0), (0, 16), (16, 1)] {
            let masks = |tags: usize| [0, 1, 0x80, 0x100, 0x8000, 0xffff].map(|mask| mask & all_tags(tags));
            for (one, other) in
                masks(first).into_iter().flat_map(|one| masks(second).map(|other| (one, other)))
            {
                let expected = (first + second > 16).then_some(52);
                let found = self.number(&forgetting(first, one), &forgetting(second, other));
                assert_eq!(found, expected, "{first} and {second} tags");
            }
        }
    }

    /// Results with rules of 14 bytes at the limits, with spaces of just their lengths, a byte less and a byte more.
    pub fn compare_longest(&self, first: &Automaton, second: &Automaton, length: usize) {
        let [first, second] = [first, second].map(|set| set.encode_in(Form::Isolating));
        for (space, expected) in [(length - 1, Some(53)), (length, None), (length + 1, None)] {
            assert_eq!(self.compare(&first, &second, space).number(), expected, "space {space}");
        }
        assert_eq!(self.result_length(&first, &second), length);
    }
}

/// What a result has of rules of 14 bytes.
fn kind(result: &[u8]) -> &'static str {
    match check_with_form(result) {
        Ok((Form::Isolating, set)) if set.forgets() => "written with tags to forget",
        Ok((Form::Isolating, _)) => "written with rules of 14 bytes",
        _ => "written",
    }
}

/// The mask of all tags below a number.
fn all_tags(tags: usize) -> u16 {
    ((1u32 << tags) - 1) as u16
}

/// A set of so many tags with three rules, the first and the last of which forget a mask.
pub fn forgetting(tags: usize, mask: u16) -> Automaton {
    let mut set = of_counts(3, tags, 3);
    set.rules[0].forgets = mask;
    set.rules[2].forgets = mask;
    set
}

/// A set over one symbol with four children, with so many states, tags and rules.
pub fn of_counts(states: usize, tags: usize, rules: usize) -> Automaton {
    let digit = |number: usize, place: u32| number / states.pow(place) % states;
    let numbered = |number: usize| rule(0, &[3, 2, 1, 0].map(|place| digit(number, place)), 0);
    let tags_of = |number: usize| all_tags(tags) & (number * 257) as u16;
    let mut rules: Vec<_> = (0..rules).map(numbered).collect();
    if states == 1 {
        rules.truncate(1);
    }
    Automaton {
        arities: vec![4, 0],
        states: (0..states).map(|number| state(number % 3 == 0, tags_of(number))).collect(),
        tag_count: tags,
        rules,
    }
}
