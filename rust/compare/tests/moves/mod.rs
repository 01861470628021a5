//! What the comparisons of the four moves between neighbouring forms share.
#![allow(dead_code)] // not every move asks for every set

use std::collections::BTreeMap;

use compare::answer::Answer;
use compare::tally::{Tally, SET};
use generate::{set_bytes, sets, Random};
use reference::examples::{balanced_trees, lists_of_equal_pairs, rule, set_b, set_d, set_e, set_g, state};
use reference::limits::{HEADER_BYTES, MAX_NARROW_TAGS, MAX_TAGS};
use reference::stored::check_with_form;
use reference::{Automaton, Form, Refusal};

/// One of the moves: its comparison, the reference's own, and the form that it starts from.
pub struct Move {
    pub name: &'static str,
    pub compare: fn(&[u8], usize) -> Answer,
    pub reference: fn(&[u8], usize) -> Result<Vec<u8>, Refusal>,
    pub from: Form,
    /// For a move to a form that holds less.
    pub too_much: Option<TooMuch>,
}

/// What a move cannot take along: its number, and which sets in the form that the move starts from have it.
pub struct TooMuch {
    pub number: u8,
    pub is_in: fn(&Automaton) -> bool,
}

/// Space for every result.
pub const PLENTY: usize = 16_000;
/// Space for every result of an example, which takes less time to fill and to compare.
pub const PLENTY_FOR_AN_EXAMPLE: usize = 200;

/// The tests that every move has.
macro_rules! tests_of {
    ($the_move:ident) => {
        #[test]
        fn seeded_sets() {
            $the_move.compare_seeded_sets();
        }

        #[test]
        fn every_space_for_the_examples() {
            $the_move.compare_every_space();
        }

        #[test]
        fn every_value_of_every_byte_of_the_examples() {
            $the_move.compare_every_byte();
        }

        #[test]
        fn every_length_of_an_example() {
            $the_move.compare_every_length();
        }

        #[test]
        fn every_number_of_tags() {
            $the_move.compare_every_number_of_tags();
        }

        #[test]
        fn sets_at_the_limits() {
            $the_move.compare_sets_at_the_limits();
        }
    };
}
pub(crate) use tests_of;

impl Move {
    /// The numbers between the set's and 53.
    fn own_numbers(&self) -> Vec<u8> {
        [18].into_iter().chain(self.too_much.as_ref().map(|too_much| too_much.number)).collect()
    }

    /// The length of a result, if there is one.
    fn result_length(&self, set: &[u8]) -> Option<usize> {
        (self.reference)(set, usize::MAX).ok().map(|bytes| bytes.len())
    }

    /// The number that a set within the limits is refused with where there is space, by the settled readings. A wide set
    /// without rules is in both wide forms.
    fn expected(&self, set: &Automaton, form: Form) -> Option<u8> {
        let is_in_both = set.rules.is_empty() && form > Form::Narrow && self.from > Form::Narrow;
        match &self.too_much {
            _ if set.tag_count > form.most_tags() => Some(3),
            _ if form != self.from && !is_in_both => Some(18),
            Some(too_much) if (too_much.is_in)(set) => Some(too_much.number),
            _ => None,
        }
    }

    /// A seeded set, mostly in the form that the move starts from, often damaged, and sometimes without rules. About two
    /// of five forget tags in the isolating form; the other forms leave these out.
    fn seeded(&self, random: &mut Random) -> Vec<u8> {
        let sizes = sets::any_sizes(random);
        let mut automaton = sets::any_automaton(random, &sizes);
        if random.percent(10) {
            automaton.rules.clear();
        }
        let form = if random.percent(50) { self.from } else { random.pick(&Form::ALL) };
        // A narrow set of many tags is no set at all; damage makes enough of these.
        let form = form.max(Form::for_tags(automaton.tag_count));
        set_bytes::stored_in(random, &automaton, form, 60)
    }

    /// Many seeded sets of every kind with spaces around the result's length.
    pub fn compare_seeded_sets(&self) {
        let (mut tally, mut kinds) = (Tally::of(self.name), BTreeMap::new());
        for seed in 0..40_000 {
            let random = &mut Random::new(seed);
            let set = self.seeded(random);
            let space = match self.result_length(&set) {
                None => random.pick(&[0, 1, 60, PLENTY]),
                Some(length) if random.percent(5) => random.below(length),
                Some(length) => random.pick(&[length, length, length + 1, length + 300, length - 1]),
            };
            tally.count((self.compare)(&set, space), |_| "written");
            *kinds.entry(kind(&set)).or_insert(0) += 1;
        }
        let numbers = [&SET[..], &self.own_numbers(), &[53]].concat();
        tally.must_reach(40_000, 200, &numbers, &["written"]);
        println!("{}: {kinds:?}", self.name);
        assert!(kinds.len() == 7 && kinds.values().all(|&count| count >= 200), "{kinds:?}");
    }

    /// Every space from none to more than enough, for each of the examples, with its rules and without.
    pub fn compare_every_space(&self) {
        for automaton in with_and_without_rules([set_e(), set_g(), set_d(), set_b()]) {
            let set = automaton.encode_in(self.from);
            let length = self.result_length(&set).expect("the move takes an example");
            for space in 0..=length + 20 {
                let expected = (space < length).then_some(53);
                assert_eq!((self.compare)(&set, space).number(), expected, "space {space}");
            }
        }
    }

    /// Every value of every byte of the examples in all forms, with a space that is long enough and one that is not.
    pub fn compare_every_byte(&self) {
        let mut tally = Tally::of(self.name);
        let examples = with_and_without_rules([set_e(), set_g(), set_d(), set_b()]);
        let in_all_forms = examples.iter().flat_map(|set| Form::ALL.map(|form| set.encode_in(form)));
        let that_forget = [lists_of_equal_pairs(), balanced_trees()].map(|set| set.encode());
        for sound in in_all_forms.chain(that_forget) {
            for (at, value) in (0..sound.len()).flat_map(|at| (0..=255).map(move |value| (at, value))) {
                let mut set = sound.clone();
                set[at] = value;
                tally.count((self.compare)(&set, PLENTY_FOR_AN_EXAMPLE), |_| "written");
                (self.compare)(&set, 0);
            }
        }
        tally.must_reach(20_000, 5, &[&SET[1..], &self.own_numbers()].concat(), &["written"]);
    }

    /// Every length of an example in all forms, with its rules and without.
    pub fn compare_every_length(&self) {
        for (automaton, form) in in_each_form(&with_and_without_rules([set_e()])) {
            let sound = automaton.encode_in(form);
            let longer = [&sound[..], &sound[..]].concat();
            for length in 0..=longer.len() {
                let expected = match length {
                    _ if length < HEADER_BYTES => Some(1),
                    _ if length == sound.len() => self.expected(automaton, form),
                    _ => Some(3),
                };
                let number = (self.compare)(&longer[..length], PLENTY_FOR_AN_EXAMPLE).number();
                assert_eq!(number, expected, "{length} bytes");
            }
        }
    }

    /// Every number of tags, whether or not a state carries them, in all forms; then one too many.
    pub fn compare_every_number_of_tags(&self) {
        for tags in 0..=MAX_TAGS {
            let none_carried = Automaton { tag_count: tags, ..of_counts(5, 0, 3) };
            let sets = with_and_without_rules([of_counts(5, tags, 3), none_carried]);
            for (set, form) in in_each_form(&sets) {
                assert_eq!(self.number(set, form), self.expected(set, form), "{tags} tags, {form:?}");
            }
        }
        let past = Automaton { tag_count: MAX_TAGS + 1, ..of_counts(5, 8, 3) };
        for form in Form::ALL {
            assert_eq!(self.number(&past, form), Some(2), "{form:?}");
        }
    }

    /// The fewest and the most states and rules in all forms, and one too many.
    pub fn compare_sets_at_the_limits(&self) {
        let counts = [(1, 0), (1, 1), (2, 4), (255, 1023), (256, 1024), (256, 0)];
        let of_tags = |tags: usize| counts.map(|(states, rules)| of_counts(states, tags, rules));
        let sets = [&of_tags(MAX_NARROW_TAGS)[..], &of_tags(MAX_NARROW_TAGS + 1), &[largest(8), largest(16)]];
        for (set, form) in in_each_form(&sets.concat()) {
            let (states, rules) = (set.states.len(), set.rules.len());
            assert_eq!(self.number(set, form), self.expected(set, form), "{states} {rules} {form:?}");
        }
        for past in [of_counts(257, 8, 3), of_counts(40, 8, 1025)] {
            assert_eq!(self.number(&past, self.from), Some(2));
        }
    }

    /// The longest set that the move takes, of so many bytes, with a result of so many.
    pub fn compare_the_longest_set(&self, length: usize, result: usize) {
        let longest = largest(MAX_NARROW_TAGS).encode_in(self.from);
        assert_eq!(longest.len(), length);
        assert_eq!((self.compare)(&longest, result), Answer::Value(result as u64));
        assert_eq!((self.compare)(&longest, result - 1).number(), Some(53));
    }

    /// The number that a set in a form is refused with, with plenty of space. A result also fits a space of just its
    /// length or a byte more, and no space that is a byte shorter; a refusal is the same with no space at all.
    pub fn number(&self, automaton: &Automaton, form: Form) -> Option<u8> {
        let set = automaton.encode_in(form);
        let number = (self.compare)(&set, PLENTY).number();
        match self.result_length(&set) {
            None => assert_eq!((self.compare)(&set, 0).number(), number),
            Some(length) => {
                for (space, expected) in [(length - 1, Some(53)), (length, None), (length + 1, None)] {
                    assert_eq!((self.compare)(&set, space).number(), expected);
                }
            }
        }
        number
    }
}

/// What the moves may look at in a set.
fn kind(set: &[u8]) -> &'static str {
    let Ok((form, automaton)) = check_with_form(set) else { return "refused" };
    match (form, automaton.rules.is_empty()) {
        (Form::Narrow, false) => "narrow",
        (Form::Narrow, true) => "narrow without rules",
        (Form::Wide, false) => "wide",
        (Form::Wide, true) => "wide without rules",
        (Form::Isolating, _) if automaton.forgets() => "isolating, with tags to forget",
        (Form::Isolating, _) => "isolating, with nothing forgotten",
    }
}

/// Some sets, and the same without their rules.
fn with_and_without_rules<const N: usize>(sets: [Automaton; N]) -> Vec<Automaton> {
    sets.into_iter().flat_map(|set| [Automaton { rules: vec![], ..set.clone() }, set]).collect()
}

/// Each set with each form.
fn in_each_form(sets: &[Automaton]) -> impl Iterator<Item = (&Automaton, Form)> {
    sets.iter().flat_map(|set| Form::ALL.map(|form| (set, form)))
}

/// A set over one symbol with four children and one without, with so many states, tags and rules. The last state carries
/// every tag.
pub fn of_counts(states: usize, tags: usize, rules: usize) -> Automaton {
    let all = ((1u32 << tags) - 1) as u16;
    let numbered = |number: usize| rule(0, &[0, 0, number / states % states, number % states], 0);
    Automaton {
        arities: vec![4, 0],
        states: (0..states)
            .map(|number| state(number % 3 == 0, if number + 1 == states { all } else { 0 }))
            .collect(),
        tag_count: tags,
        rules: (0..rules).map(numbered).collect(),
    }
}

/// E with a tag to forget that it does not have.
pub fn strange() -> Automaton {
    let mut set = set_e();
    set.rules[1].forgets = 2;
    set
}

/// E with its rules in the wrong order, which is told before anything that they forget.
pub fn unsorted() -> Automaton {
    let mut set = strange();
    set.rules.reverse();
    set
}

/// A set with symbols, states and rules at their limits and so many tags.
pub fn largest(tags: usize) -> Automaton {
    let mut arities = vec![0; 64];
    arities[0] = 4;
    Automaton { arities, ..of_counts(256, tags, 1024) }
}
