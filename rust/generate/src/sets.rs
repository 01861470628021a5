//! Sound sets of many sizes, with chosen symbols, states, tags and rules.

use std::collections::BTreeSet;
use std::ops::RangeInclusive;

use reference::examples::rule;
use reference::limits::{MAX_NARROW_TAGS, MAX_RULES, MAX_STATES, MAX_SYMBOLS, MAX_TAGS};
use reference::{Automaton, Form, Rule, State};

use crate::trees::all_lists;
use crate::Random;

/// The sizes that a set may have. Fewer rules come out where there are not so many different ones.
#[derive(Clone)]
pub struct Sizes {
    pub symbols: RangeInclusive<usize>,
    pub states: RangeInclusive<usize>,
    pub tags: RangeInclusive<usize>,
    pub rules: RangeInclusive<usize>,
}

/// Sets small enough for every labelling of a small tree to be tried.
pub fn tiny_sizes() -> Sizes {
    Sizes { symbols: 1..=4, states: 1..=3, tags: 0..=2, rules: 0..=14 }
}

/// Sets as a person would write them.
pub fn small_sizes() -> Sizes {
    Sizes { symbols: 1..=6, states: 1..=8, tags: 0..=4, rules: 0..=40 }
}

/// Small sets with many rules and tags, so that tags often decide.
pub fn tagged_sizes() -> Sizes {
    Sizes { symbols: 2..=5, states: 2..=6, tags: 1..=8, rules: 8..=40 }
}

/// Small sets with more tags than the narrow form has bits for, so that tags of both bytes of a mask decide.
pub fn many_tags_sizes() -> Sizes {
    Sizes { states: 2..=8, tags: MAX_NARROW_TAGS + 1..=MAX_TAGS, ..tagged_sizes() }
}

/// Sets of middling size.
pub fn medium_sizes() -> Sizes {
    Sizes { symbols: 1..=20, states: 1..=40, tags: 0..=8, rules: 0..=200 }
}

/// Sets at the limits of the narrow form.
pub fn largest_narrow_sizes() -> Sizes {
    Sizes { tags: MAX_NARROW_TAGS - 1..=MAX_NARROW_TAGS, ..largest_sizes() }
}

/// Sets at the limits.
pub fn largest_sizes() -> Sizes {
    Sizes {
        symbols: MAX_SYMBOLS - 1..=MAX_SYMBOLS,
        states: MAX_STATES - 1..=MAX_STATES,
        tags: MAX_TAGS - 1..=MAX_TAGS,
        rules: MAX_RULES - 1..=MAX_RULES,
    }
}

/// Mostly small sets, some middling ones, a few at the limits. One in six has more tags than the narrow form can hold.
pub fn any_sizes(random: &mut Random) -> Sizes {
    match random.below(100) {
        0..=25 => tiny_sizes(),
        26..=66 => small_sizes(),
        67..=81 => many_tags_sizes(),
        82..=97 => medium_sizes(),
        98 => largest_narrow_sizes(),
        _ => largest_sizes(),
    }
}

/// A sound set that forgets nothing.
pub fn automaton(random: &mut Random, sizes: &Sizes) -> Automaton {
    let symbols = within(random, &sizes.symbols);
    let arities = arities(random, symbols);
    over_symbols(random, sizes, arities)
}

/// A sound set whose rules forget tags in about two of five cases.
pub fn any_automaton(random: &mut Random, sizes: &Sizes) -> Automaton {
    let automaton = automaton(random, sizes);
    forgetting_perhaps(random, automaton)
}

/// A sound set whose rules forget tags. Mostly it has few, so that what is forgotten often decides.
pub fn forgetful(random: &mut Random) -> Automaton {
    let few_tags = || Sizes { tags: 1..=2, ..tagged_sizes() };
    let sizes = random.pick::<fn() -> Sizes>(&[few_tags, few_tags, tagged_sizes, many_tags_sizes])();
    let mut automaton = automaton(random, &sizes);
    forget_some(random, &mut automaton);
    automaton
}

/// A set as it is, or in about two of five cases with tags to forget.
pub fn forgetting_perhaps(random: &mut Random, mut automaton: Automaton) -> Automaton {
    if random.percent(40) {
        forget_some(random, &mut automaton);
    }
    automaton
}

/// Lets rules forget tags that the set has, where it has any: a few rules, about half of them, or all; one tag or several.
pub fn forget_some(random: &mut Random, automaton: &mut Automaton) {
    let tag_count = automaton.tag_count;
    let forgetful = random.pick(&[10, 50, 100]);
    for rule in &mut automaton.rules {
        if tag_count > 0 && random.percent(forgetful) {
            let mask = if random.percent(70) { 1 << random.below(tag_count) } else { random.word() as u16 };
            rule.forgets = mask & all_tags(tag_count);
        }
    }
}

/// The mask of all tags below a number.
fn all_tags(tag_count: usize) -> u16 {
    ((1u32 << tag_count) - 1) as u16
}

/// A sound set that forgets nothing with the symbols given.
pub fn over_symbols(random: &mut Random, sizes: &Sizes, arities: Vec<u8>) -> Automaton {
    let state_count = within(random, &sizes.states);
    let tag_count = within(random, &sizes.tags);
    let states = states(random, state_count, tag_count);
    let wanted = within(random, &sizes.rules);
    let rules = rules(random, &arities, state_count, wanted);
    Automaton { arities, states, tag_count, rules }
}

/// A sound set in which no two states share a tag, so that its sample is not refused with 41.
pub fn with_own_tags(random: &mut Random, sizes: &Sizes) -> Automaton {
    let mut automaton = automaton(random, sizes);
    separate_tags(&mut automaton);
    automaton
}

/// A sound set in which each symbol has a state of its own, over any children. So a tree has one labelling; with symbol 0
/// at its root, which has children and no tag, it is let in just where all parts that a tag asks to be equal are so.
pub fn of_equal_parts(random: &mut Random) -> Automaton {
    let symbols = random.between(2, 4);
    let tag_count = random.between(1, 2);
    let mut arities: Vec<u8> = (0..symbols).map(|_| random.pick(&[0, 0, 1, 2])).collect();
    arities[0] = random.pick(&[2, 2, 3]);
    arities[symbols - 1] = 0;
    let state = |symbol: usize| {
        let tags = if symbol == 0 || random.percent(25) { 0 } else { 1 << random.below(tag_count) };
        State { is_final: symbol == 0, tags }
    };
    let states = (0..symbols).map(state).collect();
    let numbers: Vec<usize> = (0..symbols).collect();
    let over_any = |(symbol, &arity): (usize, &u8)| {
        let children = all_lists(&numbers, usize::from(arity)).into_iter();
        children.map(move |children| rule(symbol, &children, symbol))
    };
    let rules = arities.iter().enumerate().flat_map(over_any).collect();
    Automaton { arities, states, tag_count, rules }
}

/// A sound set for a chain of as many rows as it has tags: row k from the leaf up carries tag k, and the last so many of
/// them carry it or not. So a row has an annotation for each choice in it and below.
pub fn of_choices(tag_count: usize, free: usize) -> Automaton {
    // States 2k with tag k, and 2k + 1 without a tag.
    let reached =
        |row: usize| if row + free < tag_count { vec![2 * row] } else { vec![2 * row, 2 * row + 1] };
    let mut rules: Vec<Rule> = Vec::new();
    for row in 0..tag_count {
        for target in reached(row) {
            match row.checked_sub(1) {
                None => rules.push(rule(1, &[], target)),
                Some(below) => {
                    rules.extend(reached(below).into_iter().map(|child| rule(0, &[child], target)));
                }
            }
        }
    }
    rules.sort();
    let state = |number: usize| State {
        is_final: number / 2 + 1 == tag_count,
        tags: if number.is_multiple_of(2) { 1 << (number / 2) } else { 0 },
    };
    Automaton { arities: vec![1, 0], states: (0..2 * tag_count).map(state).collect(), tag_count, rules }
}

/// Leaves each tag to the lowest state that carries it.
pub fn separate_tags(automaton: &mut Automaton) {
    let mut given = 0;
    for state in &mut automaton.states {
        state.tags &= !given;
        given |= state.tags;
    }
}

/// A sound set whose states are reached layer after layer, so that marking needs many rounds. Few
/// states are final, states are numbered in no order, and no two share a tag.
pub fn layered(random: &mut Random, sizes: &Sizes) -> Automaton {
    let symbols = within(random, &sizes.symbols);
    let arities = arities(random, symbols);
    layered_over_symbols(random, sizes, arities)
}

/// A set as above with the symbols given.
pub fn layered_over_symbols(random: &mut Random, sizes: &Sizes, arities: Vec<u8>) -> Automaton {
    let mut automaton = over_symbols(random, sizes, arities);
    let count = automaton.states.len();
    let numbers = shuffled(random, count);
    let rules = layered_rules(random, &automaton.arities, &numbers);
    automaton.rules = rules.into_iter().take(*sizes.rules.end()).collect();
    let final_layer = numbers[count / 2 + random.below(count - count / 2)];
    for (number, state) in automaton.states.iter_mut().enumerate() {
        state.is_final = number == final_layer || random.percent(100 / count);
    }
    separate_tags(&mut automaton);
    automaton
}

/// Rules to the state of each layer from states a few layers below.
fn layered_rules(random: &mut Random, arities: &[u8], numbers: &[usize]) -> BTreeSet<Rule> {
    let mut rules = BTreeSet::new();
    for layer in 0..numbers.len() {
        for _ in 0..random.between(1, 3) {
            let mut rule = any_rule(random, arities, numbers.len());
            if rule.children.is_empty() && layer > 0 && random.percent(95) {
                continue;
            }
            if layer > 0 {
                let below = |random: &mut Random| numbers[layer - 1 - random.below(layer.min(3))];
                rule.children.iter_mut().for_each(|child| *child = below(random));
            }
            rules.insert(Rule { target: numbers[layer], ..rule });
        }
    }
    rules
}

/// The numbers below a count in random order.
fn shuffled(random: &mut Random, count: usize) -> Vec<usize> {
    let mut numbers: Vec<usize> = (0..count).collect();
    for place in 1..count {
        numbers.swap(place, random.below(place + 1));
    }
    numbers
}

fn within(random: &mut Random, range: &RangeInclusive<usize>) -> usize {
    random.between(*range.start(), *range.end())
}

/// Numbers of children, few being likelier; the last symbol is mostly a leaf, so that trees exist.
fn arities(random: &mut Random, symbols: usize) -> Vec<u8> {
    let mut arities: Vec<u8> = (0..symbols).map(|_| random.pick(&[0, 0, 0, 1, 1, 2, 2, 2, 3, 4])).collect();
    if random.percent(95) {
        arities[symbols - 1] = 0;
    }
    arities
}

fn states(random: &mut Random, count: usize, tag_count: usize) -> Vec<State> {
    let bits = Form::for_tags(tag_count).most_tags();
    let tagged = random.pick(&[10, 30, 80]);
    (0..count)
        .map(|_| {
            let mask = if random.percent(70) { 1 << random.below(bits) } else { random.word() as u16 };
            State {
                is_final: random.percent(40),
                tags: if random.percent(tagged) { mask & all_tags(tag_count) } else { 0 },
            }
        })
        .collect()
}

/// Different rules in stored order, at most so many.
fn rules(random: &mut Random, arities: &[u8], states: usize, wanted: usize) -> Vec<Rule> {
    let mut rules = BTreeSet::new();
    for _ in 0..4 * wanted {
        if rules.len() == wanted {
            break;
        }
        rules.insert(any_rule(random, arities, states));
    }
    rules.into_iter().collect()
}

fn any_rule(random: &mut Random, arities: &[u8], states: usize) -> Rule {
    let symbol = random.below(arities.len());
    let children: Vec<usize> = (0..arities[symbol]).map(|_| random.below(states)).collect();
    rule(symbol, &children, random.below(states))
}
