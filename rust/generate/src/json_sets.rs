//! Sets over the signature of JSON, put together from the shapes of objects and arrays.

use reference::examples::{rule, state};
use reference::json_keys::{arities, END, FIRST_KEY, ITEM, OTHER, STOP};
use reference::{Automaton, Rule};

/// A set in the making: its states go by names, and are numbered as they come up.
pub struct Shape {
    keys: Vec<String>,
    states: Vec<String>,
    rules: Vec<Rule>,
}

impl Shape {
    /// No rules yet, over the signature of a list of keys.
    pub fn over(keys: &[&str]) -> Shape {
        let keys = keys.iter().map(|key| key.to_string()).collect();
        Shape { keys, states: Vec::new(), rules: Vec::new() }
    }

    /// The number of a state.
    fn state(&mut self, name: &str) -> usize {
        if let Some(number) = self.states.iter().position(|other| other == name) {
            return number;
        }
        self.states.push(name.to_string());
        self.states.len() - 1
    }

    /// The symbol of a listed key.
    fn key(&self, key: &str) -> usize {
        FIRST_KEY + self.keys.iter().position(|other| other == key).expect("a key of the list")
    }

    /// A rule from the children's states to a target.
    pub fn rule(&mut self, symbol: usize, children: &[&str], target: &str) {
        self.forgetting_rule(symbol, children, target, 0);
    }

    /// A rule as above that forgets tags.
    fn forgetting_rule(&mut self, symbol: usize, children: &[&str], target: &str, forgets: u16) {
        let children: Vec<usize> = children.iter().map(|child| self.state(child)).collect();
        let target = self.state(target);
        self.rules.push(rule(symbol, &children, target).forgetting(forgets));
    }

    /// An object whose keys are these, in this order and no others, with values in these states.
    pub fn object(&mut self, members: &[(&str, &str)], target: &str) {
        let mut rest = format!("{target}: end");
        self.rule(END, &[], &rest);
        for (place, (key, value)) in members.iter().enumerate().rev() {
            let from_here = if place == 0 { target.to_string() } else { format!("{target}: from {key}") };
            self.rule(self.key(key), &[value, &rest], &from_here);
            rest = from_here;
        }
    }

    /// An object that has this one listed key, with a value in this state, among keys that are not listed.
    pub fn object_with(&mut self, key: &str, value: &str, target: &str) {
        let rest = format!("{target}: rest");
        self.rule(END, &[], &rest);
        self.rule(OTHER, &["any", "any", &rest], &rest);
        self.rule(self.key(key), &[value, &rest], target);
        self.rule(OTHER, &["any", "any", target], target);
    }

    /// An array of one element or more, all in this state.
    pub fn array(&mut self, element: &str, target: &str) {
        let stop = format!("{target}: stop");
        self.rule(STOP, &[], &stop);
        self.rule(ITEM, &[element, &stop], target);
        self.rule(ITEM, &[element, target], target);
    }

    /// An array of one pair or more of neighbours, all in this state. Where a pair is whole, these tags are forgotten, so
    /// that they hold within each pair alone.
    pub fn array_of_pairs(&mut self, element: &str, target: &str, forgets: u16) {
        let (stop, odd) = (format!("{target}: stop"), format!("{target}: odd"));
        self.rule(STOP, &[], &stop);
        self.rule(ITEM, &[element, &stop], &odd);
        self.rule(ITEM, &[element, target], &odd);
        self.forgetting_rule(ITEM, &[element, &odd], target, forgets);
    }

    /// Every tree at all.
    pub fn anything(&mut self) {
        for (symbol, arity) in arities(self.keys.len()).into_iter().enumerate() {
            self.rule(symbol, &vec!["any"; usize::from(arity)], "any");
        }
    }

    /// The set with one final state, and a tag of its own for each of these states.
    pub fn finish(mut self, final_state: &str, tagged: &[&str]) -> Automaton {
        let final_state = self.state(final_state);
        let mut states = vec![state(false, 0); self.states.len()];
        states[final_state].is_final = true;
        for (tag, name) in tagged.iter().enumerate() {
            states[self.state(name)].tags = 1 << tag;
        }
        self.rules.sort();
        self.rules.dedup();
        Automaton { arities: arities(self.keys.len()), states, tag_count: tagged.len(), rules: self.rules }
    }
}
