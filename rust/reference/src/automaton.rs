//! A set of document 01, "Sets", as Rust values, with the tags that rules forget (document 02, Wish 9), and the stored
//! forms written from them.

use crate::forms::Form;
use crate::limits::{MAX_CHILDREN, UNUSED};

/// A rigid tree automaton with tags; the paper calls it a set.
#[derive(Clone, Debug, PartialEq, Eq)]
pub struct Automaton {
    /// The number of children of each symbol.
    pub arities: Vec<u8>,
    pub states: Vec<State>,
    /// How many tags there are; tag k is bit k of a state's tags.
    pub tag_count: usize,
    /// The rules, in stored order.
    pub rules: Vec<Rule>,
}

#[derive(Clone, Copy, Debug, PartialEq, Eq)]
pub struct State {
    pub is_final: bool,
    pub tags: u16,
}

/// A rule. The order of the fields is the order in which stored rules ascend ("Sets"); the tags to forget come last, and
/// never decide in a sound set, where no rule stands twice.
#[derive(Clone, Debug, PartialEq, Eq, PartialOrd, Ord, Hash)]
pub struct Rule {
    pub symbol: usize,
    /// One state for each child.
    pub children: Vec<usize>,
    pub target: usize,
    /// The tags that the rule forgets, bit k for tag k.
    pub forgets: u16,
}

impl State {
    pub fn has_tag(&self, tag: usize) -> bool {
        has_bit(self.tags, tag)
    }
}

impl Rule {
    /// The rule with these tags to forget.
    pub fn forgetting(self, forgets: u16) -> Rule {
        Rule { forgets, ..self }
    }

    pub fn forgets_tag(&self, tag: usize) -> bool {
        has_bit(self.forgets, tag)
    }
}

fn has_bit(mask: u16, tag: usize) -> bool {
    mask >> tag & 1 == 1
}

impl Automaton {
    pub fn arity(&self, symbol: usize) -> usize {
        usize::from(self.arities[symbol])
    }

    /// The tags that a state carries, lowest first.
    pub fn tags_of(&self, state: usize) -> impl Iterator<Item = usize> {
        let state = self.states[state];
        (0..self.tag_count).filter(move |&tag| state.has_tag(tag))
    }

    /// The tags that a rule forgets, lowest first.
    pub fn tags_forgotten_by<'a>(&self, rule: &'a Rule) -> impl Iterator<Item = usize> + 'a {
        (0..self.tag_count).filter(|&tag| rule.forgets_tag(tag))
    }

    /// Whether a rule names a tag to forget, whether or not that has an effect.
    pub fn forgets(&self) -> bool {
        self.rules.iter().any(|rule| rule.forgets != 0)
    }

    /// The shortest form that holds the set.
    pub fn shortest_form(&self) -> Form {
        if self.forgets() {
            Form::Isolating
        } else {
            Form::for_tags(self.tag_count)
        }
    }

    /// The header's eight numbers.
    fn header(&self, form: Form) -> [usize; 8] {
        let (symbols, states, rules) = (self.arities.len(), self.states.len(), self.rules.len());
        [
            symbols,
            states,
            self.tag_count,
            rules,
            form.symbols_offset(),
            form.states_offset(symbols),
            form.rules_offset(symbols, states),
            form.total(symbols, states, rules),
        ]
    }

    /// The set in the shortest form that holds it.
    pub fn encode(&self) -> Vec<u8> {
        self.encode_in(self.shortest_form())
    }

    /// The stored form of a kind. Nothing is checked, so that tests can also write sets past the limits; tags that the
    /// form has no bits for are left out, those to forget too.
    pub fn encode_in(&self, form: Form) -> Vec<u8> {
        let mut bytes = Vec::new();
        for number in self.header(form) {
            push_number(&mut bytes, number);
        }
        bytes.extend(&self.arities);
        for state in &self.states {
            bytes.push(u8::from(state.is_final));
            bytes.extend(&state.tags.to_le_bytes()[..form.tag_bytes()]);
        }
        for rule in &self.rules {
            push_rule(&mut bytes, rule);
            bytes.extend(&rule.forgets.to_le_bytes()[..form.forgets_bytes()]);
        }
        bytes
    }
}

/// Symbol, target and child places, which every form has.
fn push_rule(bytes: &mut Vec<u8>, rule: &Rule) {
    push_number(bytes, rule.symbol);
    push_number(bytes, rule.target);
    for place in 0..MAX_CHILDREN {
        let child = rule.children.get(place).copied();
        push_number(bytes, child.unwrap_or(usize::from(UNUSED)));
    }
}

fn push_number(bytes: &mut Vec<u8>, number: usize) {
    let number = u16::try_from(number).expect("a stored number has 16 bits");
    bytes.extend(number.to_le_bytes());
}
