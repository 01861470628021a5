//! Sound documents over a set's symbols: haphazard ones, ones grown along its rules, and ones at the limits.

use reference::limits::{MAX_LEVELS, MAX_ROWS, MAX_TAGS};
use reference::table::TableBuilder;
use reference::{Automaton, Document, Row, Rule, Scalar, MINUS_ZERO};

use crate::Random;

/// A sound document of at most so many rows; nothing where the set has no symbol without children.
pub fn document(random: &mut Random, automaton: &Automaton, most: usize) -> Option<Document> {
    match random.below(4) {
        0 | 1 => haphazard(random, automaton, most),
        2 => grown(random, automaton, most).or_else(|| haphazard(random, automaton, most)),
        _ => {
            let rows = random.between(1, most);
            broad(random, automaton, rows)
        }
    }
}

/// The symbols with and without children.
fn inner_and_leaves(automaton: &Automaton) -> (Vec<usize>, Vec<usize>) {
    (0..automaton.arities.len()).partition(|&symbol| automaton.arity(symbol) > 0)
}

/// Rates that recur: zero, and some that a wrong rule could take for it, with bits next to those of a zero or those of a
/// NaN. The zero with its sign bit set is not among them, since it stands in no row.
const RATES: [u64; 8] = [
    0,
    1,
    MINUS_ZERO | 1,
    0x7ff8_0000_0000_0001,
    0xfff8_0000_0000_0000,
    u64::MAX >> 1,
    u64::MAX,
    1.5f64.to_bits(),
];

/// A rate that a row may have, zero in so many of a hundred cases and in some others.
pub fn rate(random: &mut Random, zero_percent: usize) -> Scalar {
    Scalar::Rate(if random.percent(zero_percent) { 0 } else { random.pick(&RATES) })
}

/// A scalar, from a few that recur, so that equal leaves are common and unlike ones exist.
pub fn scalar(random: &mut Random) -> Scalar {
    match random.below(10) {
        0..=3 => Scalar::Bare,
        4 => Scalar::Flag(random.percent(50)),
        5 | 6 => Scalar::Count(random.pick(&[0, 1, 2, 7, 10, 1 << 63, u64::MAX])),
        7 => Scalar::Name(random.pick(&[0, 1, 10, u32::MAX])),
        8 => rate(random, 20),
        _ => Scalar::Count(random.word() >> random.below(64)),
    }
}

/// A sound document whose leaves are rates, most of them zero: the loads of servers, many of them idle. Mostly it is
/// grown along the rules, so that tags ask that loads are equal.
pub fn of_loads(random: &mut Random, automaton: &Automaton, most: usize) -> Option<Document> {
    let along_the_rules = if random.percent(80) { grown(random, automaton, most) } else { None };
    let mut rows = along_the_rules.or_else(|| document(random, automaton, most))?.rows;
    for row in rows.iter_mut().filter(|row| row.children.is_empty()) {
        row.scalar = rate(random, 60);
    }
    Some(thinned(&rows))
}

/// Rows on random lower rows, thinned out to those that the last one reaches.
pub fn haphazard(random: &mut Random, automaton: &Automaton, most: usize) -> Option<Document> {
    let (inner, leaves) = inner_and_leaves(automaton);
    if leaves.is_empty() {
        return None;
    }
    let wanted = random.between(1, most);
    let leaf_percent = random.pick(&[15, 40, 60]);
    let mut rows: Vec<Row> = Vec::new();
    for number in 0..wanted {
        let row = if number == 0 || inner.is_empty() || random.percent(leaf_percent) {
            leaf(random, &leaves)
        } else {
            over_recent_rows(random, automaton, &inner, number)
        };
        rows.push(row);
    }
    Some(thinned(&rows)).filter(|document| document.levels() <= MAX_LEVELS)
}

fn leaf(random: &mut Random, leaves: &[usize]) -> Row {
    Row { symbol: random.pick(leaves), children: Vec::new(), scalar: scalar(random) }
}

/// A row over rows below a number, recent ones being likelier.
fn over_recent_rows(random: &mut Random, automaton: &Automaton, inner: &[usize], number: usize) -> Row {
    let symbol = random.pick(inner);
    let reach = number.min(6);
    let mut child =
        || number - 1 - if random.percent(80) { random.below(reach) } else { random.below(number) };
    Row { symbol, children: (0..automaton.arity(symbol)).map(|_| child()).collect(), scalar: Scalar::Bare }
}

/// The sound table of the last row's tree: equal rows become one, unused rows go, the order stays.
pub fn thinned(rows: &[Row]) -> Document {
    let mut reached = vec![false; rows.len()];
    reached[rows.len() - 1] = true;
    for number in (0..rows.len()).rev() {
        if reached[number] {
            rows[number].children.iter().for_each(|&child| reached[child] = true);
        }
    }
    let mut table = TableBuilder::with_limit(rows.len());
    let mut new_number = vec![0; rows.len()];
    for number in (0..rows.len()).filter(|&number| reached[number]) {
        let mut row = rows[number].clone();
        row.children.iter_mut().for_each(|child| *child = new_number[*child]);
        new_number[number] = table.place(row).expect("thinning adds no rows");
    }
    table.finish()
}

/// A document of exactly so many rows, each but the last used about once, so that its text is short.
/// Fewer rows come out where symbols or levels do not allow so many.
pub fn broad(random: &mut Random, automaton: &Automaton, rows: usize) -> Option<Document> {
    let (inner, leaves) = inner_and_leaves(automaton);
    let widest = inner.iter().copied().max_by_key(|&symbol| automaton.arity(symbol));
    let &first_leaf = leaves.first()?;
    let Some(widest) = widest else {
        return Some(Document { rows: vec![leaf(random, &leaves)] });
    };
    let arity = automaton.arity(widest);
    let leaf_count = if arity == 1 { 1 } else { most_leaves(rows, arity) };
    let mut table: Vec<Row> = Vec::new();
    let first_count = random.word() >> 1;
    for number in 0..leaf_count {
        let scalar = Scalar::Count(first_count + number as u64);
        table.push(Row { symbol: first_leaf, children: Vec::new(), scalar });
    }
    combine(&mut table, widest, arity);
    wrap(&mut table, widest, arity, rows);
    Some(Document { rows: table })
}

/// The most leaves that a tree of so many rows can have if every other row has `arity` children.
fn most_leaves(rows: usize, arity: usize) -> usize {
    (1..=rows).rev().find(|&leaves| leaves + (leaves - 1).div_ceil(arity - 1) <= rows).unwrap_or(1)
}

/// Puts rows over rows, oldest first, until one is left that no other uses.
fn combine(table: &mut Vec<Row>, symbol: usize, arity: usize) {
    let mut next = 0;
    while next + 1 < table.len() {
        let last = table.len() - 1;
        // Near the end there are too few unused rows, and the last one fills the other places.
        let children = (0..arity).map(|place| (next + place).min(last)).collect();
        table.push(Row { symbol, children, scalar: Scalar::Bare });
        next += arity.min(last - next + 1);
    }
}

/// Puts rows over the last row until there are so many rows, as far as levels allow.
fn wrap(table: &mut Vec<Row>, symbol: usize, arity: usize, rows: usize) {
    let mut levels = Document { rows: table.clone() }.levels();
    while table.len() < rows && levels < MAX_LEVELS {
        let last = table.len() - 1;
        table.push(Row { symbol, children: vec![last; arity], scalar: Scalar::Bare });
        levels += 1;
    }
}

/// A chain of so many levels; nothing where the symbols do not allow it.
pub fn chain(automaton: &Automaton, levels: usize) -> Option<Document> {
    let (inner, leaves) = inner_and_leaves(automaton);
    let &leaf = leaves.first()?;
    let mut rows = vec![Row { symbol: leaf, children: Vec::new(), scalar: Scalar::Bare }];
    for below in 0..levels - 1 {
        let &symbol = inner.first()?;
        let children = vec![below; automaton.arity(symbol)];
        rows.push(Row { symbol, children, scalar: Scalar::Bare });
    }
    Some(Document { rows })
}

/// A document grown from a final state along the rules, tags held to one row where that is easy, so
/// that it is often let in and seldom for a trivial reason. Sometimes one leaf is changed afterwards.
pub fn grown(random: &mut Random, automaton: &Automaton, most: usize) -> Option<Document> {
    let ranks = ranks(automaton);
    let finals: Vec<usize> = (0..automaton.states.len())
        .filter(|&state| automaton.states[state].is_final && ranks[state].is_some())
        .collect();
    if finals.is_empty() {
        return None;
    }
    let depth = random.between(1, 6);
    let mut grower =
        Grower { automaton, ranks, rows: Vec::new(), row_of_tag: [None; MAX_TAGS], most: most.min(MAX_ROWS) };
    let root = random.pick(&finals);
    grower.grow(random, root, depth)?;
    let mut rows = grower.rows;
    if random.percent(30) {
        change_a_leaf(random, &mut rows);
    }
    Some(thinned(&rows)).filter(|document| document.levels() <= MAX_LEVELS)
}

fn change_a_leaf(random: &mut Random, rows: &mut [Row]) {
    let number = random.below(rows.len());
    if rows[number].children.is_empty() {
        rows[number].scalar = scalar(random);
    }
}

/// The least height of a tree for each state that has one, tags left aside.
fn ranks(automaton: &Automaton) -> Vec<Option<usize>> {
    let mut ranks: Vec<Option<usize>> = vec![None; automaton.states.len()];
    for height in 1.. {
        let before = ranks.clone();
        for rule in &automaton.rules {
            if ranks[rule.target].is_none() && rule.children.iter().all(|&child| before[child].is_some()) {
                ranks[rule.target] = Some(height);
            }
        }
        if ranks == before {
            break;
        }
    }
    ranks
}

/// Rows grown so far. They may hold equal rows, which thinning makes one.
struct Grower<'a> {
    automaton: &'a Automaton,
    ranks: Vec<Option<usize>>,
    rows: Vec<Row>,
    row_of_tag: [Option<usize>; MAX_TAGS],
    most: usize,
}

impl Grower<'_> {
    /// A row for a state, or nothing where there would be too many rows.
    fn grow(&mut self, random: &mut Random, state: usize, depth: usize) -> Option<usize> {
        let mut tags = self.automaton.tags_of(state);
        if let Some(row) = tags.find_map(|tag| self.row_of_tag[tag]) {
            return Some(row);
        }
        let rule = self.automaton.rules[self.rule_for(random, state, depth)].clone();
        let children = self.grow_children(random, &rule, depth)?;
        if self.rows.len() == self.most {
            return None;
        }
        let scalar = if children.is_empty() { scalar(random) } else { Scalar::Bare };
        self.rows.push(Row { symbol: rule.symbol, children, scalar });
        let row = self.rows.len() - 1;
        for tag in self.automaton.tags_of(state) {
            self.row_of_tag[tag] = Some(row);
        }
        Some(row)
    }

    /// Rows for the children of a rule. The tags that it forgets are held to one row among these alone.
    fn grow_children(&mut self, random: &mut Random, rule: &Rule, depth: usize) -> Option<Vec<usize>> {
        let outside = self.row_of_tag;
        let forgotten: Vec<usize> = self.automaton.tags_forgotten_by(rule).collect();
        forgotten.iter().for_each(|&tag| self.row_of_tag[tag] = None);
        let mut children = Vec::new();
        for &child in &rule.children {
            children.push(self.grow(random, child, depth.saturating_sub(1))?);
        }
        forgotten.iter().for_each(|&tag| self.row_of_tag[tag] = outside[tag]);
        Some(children)
    }

    /// A rule to a state whose children have trees; at the depth's end one that leads to leaves at once.
    fn rule_for(&self, random: &mut Random, state: usize, depth: usize) -> usize {
        let rules = &self.automaton.rules;
        let height = |number: usize| {
            let ranks = rules[number].children.iter().map(|&child| self.ranks[child]);
            ranks.collect::<Option<Vec<_>>>().map(|ranks| ranks.into_iter().max().unwrap_or(0))
        };
        let usable: Vec<usize> = (0..rules.len())
            .filter(|&number| rules[number].target == state && height(number).is_some())
            .collect();
        if depth > 0 {
            random.pick(&usable)
        } else {
            usable.into_iter().min_by_key(|&number| height(number)).expect("the state has a tree")
        }
    }
}
