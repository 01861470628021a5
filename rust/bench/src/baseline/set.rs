//! A stored set: checked (1 to 7 and 9) and decoded in any form, and written in the form that its widths tell.

use super::UNUSED;

pub struct Set {
    pub arities: Vec<u8>,
    pub states: Vec<State>,
    pub tags: usize,
    pub rules: Vec<Rule>,
    /// Bytes of a stored state: 2, or 3 with two bytes of tags.
    pub state_bytes: usize,
    /// Bytes of a stored rule: 12, or 14 with tags to forget. Without rules it is 12.
    pub rule_bytes: usize,
}

#[derive(Clone, Copy)]
pub struct State {
    pub is_final: bool,
    pub tags: u16,
}

impl State {
    /// The tags of a state's two bytes, or of its three.
    fn tags(bytes: &[u8]) -> u16 {
        match *bytes {
            [_, low, high] => u16::from_le_bytes([low, high]),
            [_, low, ..] => u16::from(low),
            _ => 0,
        }
    }
}

/// A rule; the order of the fields is the order of stored rules, to which the tags to forget do not count.
#[derive(Clone, Copy, PartialEq, Eq, PartialOrd, Ord)]
pub struct Rule {
    pub symbol: u16,
    pub children: [u16; 4],
    pub target: u16,
    pub forgets: u16,
}

impl Rule {
    /// The rules in some bytes, of 12 each or of 14.
    fn read_all<const BYTES: usize>(bytes: &[u8]) -> Vec<Rule> {
        let read = |bytes: &[u8]| {
            let [symbol, target, a, b, c, d] = numbers(bytes);
            let forgets = if BYTES == 14 { u16::from_le_bytes([bytes[12], bytes[13]]) } else { 0 };
            Rule { symbol, children: [a, b, c, d], target, forgets }
        };
        bytes.chunks_exact(BYTES).map(read).collect()
    }

    /// Whether the rule stands before another.
    fn is_below(&self, other: &Rule) -> bool {
        (self.symbol, self.children, self.target) < (other.symbol, other.children, other.target)
    }

    /// The states of the children that are used.
    pub fn used(&self) -> &[u16] {
        let count = self.children.iter().take_while(|&&child| child != UNUSED).count();
        &self.children[..count]
    }
}

/// The first 16-bit numbers in some bytes.
fn numbers<const N: usize>(bytes: &[u8]) -> [u16; N] {
    std::array::from_fn(|at| u16::from_le_bytes([bytes[2 * at], bytes[2 * at + 1]]))
}

/// What a sound header says.
struct Header {
    tags: usize,
    states_at: usize,
    rules_at: usize,
    state_bytes: usize,
    rule_bytes: usize,
}

/// The header of some bytes, or 1, 2 or 3.
fn header(bytes: &[u8]) -> Result<Header, u8> {
    if bytes.len() < 16 {
        return Err(1);
    }
    let header: [u16; 8] = numbers(bytes);
    let [symbols, states, tags, rules, symbols_at, states_at, rules_at, total] = header.map(usize::from);
    if !(1..=64).contains(&symbols) || !(1..=256).contains(&states) || tags > 16 || rules > 1024 {
        return Err(2);
    }
    let state_bytes = if rules_at == states_at + 3 * states { 3 } else { 2 };
    let rules_due = 16 + symbols + state_bytes * states;
    let rule_bytes = if state_bytes == 3 && total != rules_due + 12 * rules { 14 } else { 12 };
    let offsets = (16, 16 + symbols, rules_due, rules_due + rule_bytes * rules);
    let tags_fit = state_bytes == 3 || tags <= 8;
    if (symbols_at, states_at, rules_at, total) != offsets || bytes.len() != total || !tags_fit {
        return Err(3);
    }
    Ok(Header { tags, states_at, rules_at, state_bytes, rule_bytes })
}

/// The set in some bytes, or the number of its refusal.
pub fn read(bytes: &[u8]) -> Result<Set, u8> {
    let Header { tags, states_at, rules_at, state_bytes, rule_bytes } = header(bytes)?;
    let arities = bytes[16..states_at].to_vec();
    if arities.iter().any(|&arity| arity > 4) {
        return Err(4);
    }
    let is_strange = |mask: u16| usize::from(mask) >= 1 << tags;
    let stored = bytes[states_at..rules_at].chunks_exact(state_bytes);
    if stored.clone().any(|state| state[0] > 1 || is_strange(State::tags(state))) {
        return Err(5);
    }
    let states: Vec<State> =
        stored.map(|state| State { is_final: state[0] == 1, tags: State::tags(state) }).collect();
    let read_rules = if rule_bytes == 14 { Rule::read_all::<14> } else { Rule::read_all::<12> };
    let rules = read_rules(&bytes[rules_at..]);
    if !rules.iter().all(|rule| fits(rule, &arities, states.len())) {
        return Err(6);
    }
    if !rules.windows(2).all(|pair| pair[0].is_below(&pair[1])) {
        return Err(7);
    }
    if rule_bytes == 14 && rules.iter().any(|rule| is_strange(rule.forgets)) {
        return Err(9);
    }
    Ok(Set { arities, states, tags, rules, state_bytes, rule_bytes })
}

/// Whether a rule names known symbols and states and leaves unused places at 65535.
fn fits(rule: &Rule, arities: &[u8], states: usize) -> bool {
    let known = |state: &u16| usize::from(*state) < states;
    arities.get(usize::from(rule.symbol)).is_some_and(|&arity| {
        let (used, unused) = rule.children.split_at(usize::from(arity));
        known(&rule.target) && used.iter().all(known) && unused.iter().all(|&place| place == UNUSED)
    })
}

impl Set {
    /// The length with states and rules as long as they are to be.
    fn stored_length(&self) -> usize {
        16 + self.arities.len() + self.state_bytes * self.states.len() + self.rule_bytes * self.rules.len()
    }

    /// The stored form for a space of so many bytes, or 53.
    pub fn write(&self, space: usize) -> Result<Vec<u8>, u8> {
        let states_at = 16 + self.arities.len();
        let rules_at = states_at + self.state_bytes * self.states.len();
        let length = self.stored_length();
        if length > space {
            return Err(53);
        }
        let counts = [self.arities.len(), self.states.len(), self.tags, self.rules.len()];
        let mut bytes = Vec::with_capacity(length);
        for number in counts.into_iter().chain([16, states_at, rules_at, length]) {
            bytes.extend((number as u16).to_le_bytes());
        }
        bytes.extend(&self.arities);
        for state in &self.states {
            let [low, high] = state.tags.to_le_bytes();
            match self.state_bytes {
                3 => bytes.extend([u8::from(state.is_final), low, high]),
                _ => bytes.extend([u8::from(state.is_final), low]),
            }
        }
        for Rule { symbol, children: [a, b, c, d], target, forgets } in &self.rules {
            for number in [symbol, target, a, b, c, d] {
                bytes.extend(number.to_le_bytes());
            }
            if self.rule_bytes == 14 {
                bytes.extend(forgets.to_le_bytes());
            }
        }
        Ok(bytes)
    }
}
