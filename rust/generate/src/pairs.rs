//! Pairs of sets for union and product, most of them over the same symbols.

use std::ops::RangeInclusive;

use reference::limits::MAX_TAGS;
use reference::Automaton;

use crate::sets::{
    automaton, forgetting_perhaps, largest_narrow_sizes, largest_sizes, many_tags_sizes, medium_sizes,
    over_symbols, small_sizes, tiny_sizes, Sizes,
};
use crate::Random;

/// Two sets as below, each with rules that forget tags in about two of five cases.
pub fn any_pair(random: &mut Random) -> (Automaton, Automaton) {
    let (first, second) = pair(random);
    (forgetting_perhaps(random, first), forgetting_perhaps(random, second))
}

/// Two sets that forget nothing, whose sizes make results of all sizes likely, up to the limits and past them.
pub fn pair(random: &mut Random) -> (Automaton, Automaton) {
    let (mut first_sizes, mut second_sizes) = (some_sizes(random), some_sizes(random));
    if random.percent(30) {
        (first_sizes.tags, second_sizes.tags) = tags_around_the_limit(random);
    }
    let first = automaton(random, &first_sizes);
    let second = match random.below(20) {
        0 => automaton(random, &second_sizes),
        1 => with_a_changed_symbol(random, &first, &second_sizes),
        _ => over_symbols(random, &second_sizes, first.arities.clone()),
    };
    (first, second)
}

fn some_sizes(random: &mut Random) -> Sizes {
    match random.below(50) {
        0..=14 => tiny_sizes(),
        15..=36 => small_sizes(),
        37..=39 => many_tags_sizes(),
        40..=46 => medium_sizes(),
        47 => Sizes { states: 1..=20, rules: 0..=60, ..largest_narrow_sizes() },
        48 => largest_narrow_sizes(),
        _ => largest_sizes(),
    }
}

/// Numbers of tags for two sets whose result has as many as it may have, one fewer, or one too many.
fn tags_around_the_limit(random: &mut Random) -> (RangeInclusive<usize>, RangeInclusive<usize>) {
    let sum = random.pick(&[MAX_TAGS - 1, MAX_TAGS, MAX_TAGS, MAX_TAGS + 1]);
    let any = random.between(sum.saturating_sub(MAX_TAGS), sum.min(MAX_TAGS));
    let first = random.pick(&[any, any, MAX_TAGS / 2]);
    (first..=first, sum - first..=sum - first)
}

/// A set over one symbol more, one fewer, or with another number of children for one.
fn with_a_changed_symbol(random: &mut Random, first: &Automaton, sizes: &Sizes) -> Automaton {
    let mut arities = first.arities.clone();
    let at = random.below(arities.len());
    match random.below(3) {
        0 if arities.len() < 64 => arities.insert(at, 0),
        1 if arities.len() > 1 => drop(arities.remove(at)),
        _ => arities[at] = (arities[at] + 1) % 5,
    }
    over_symbols(random, sizes, arities)
}
