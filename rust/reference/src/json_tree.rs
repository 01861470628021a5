//! A second way from JSON to a tree, for tests that hold the reader against it: first all tokens, then the value with
//! every fault collected, then the leaves numbered. Neither levels nor rows are limited here.

use std::collections::HashMap;

use crate::brute_force::Tree;
use crate::document::Scalar;
use crate::json_keys::{check_keys, END, FIRST_KEY, FLAG, ITEM, NULL, NUMBER, OTHER, STOP, TEXT};
use crate::json_tokens::{tokens, Kind, Token};
use crate::limits::MAX_RATE_DIGITS;
use crate::refusal::Refusal;

/// The tree of a text, or the leftmost of 71, 72 and 73 (74 first). It calls itself for each level of the value and
/// makes a tree as high as its arrays are long, so that it is for texts of some thousands of levels at most.
pub fn json_tree(keys: &[u8], text: &[u8]) -> Result<Tree, Refusal> {
    let keys = check_keys(keys)?;
    let mut parser = Parser::new();
    for token in tokens(text) {
        if !parser.take(token) {
            break;
        }
    }
    let value = parser.finish(text.len())?;
    Ok(TreeBuilder { keys, numbers: HashMap::new() }.tree(&value))
}

/// A value as it is read.
#[derive(Clone, Debug)]
enum Json {
    Null,
    Flag(bool),
    Number(Scalar),
    Text(String),
    Array(Vec<Json>),
    Object(Vec<(String, Json)>),
}

/// What may come next.
#[derive(Clone, Copy, PartialEq, Eq)]
enum Expected {
    Value,
    ValueOrBracket,
    Key,
    KeyOrBrace,
    Colon,
    CommaOrClosing,
    Nothing,
}

/// An array or object that is open; in an object the last member's value may be missing.
enum Open {
    Array(Vec<Json>),
    Object(Vec<(String, Option<Json>)>),
}

/// The part of a value that some tokens are, and the faults in it.
struct Parser {
    open: Vec<Open>,
    expected: Expected,
    whole: Option<Json>,
    faults: Vec<Refusal>,
}

impl Parser {
    fn new() -> Parser {
        Parser { open: Vec::new(), expected: Expected::Value, whole: None, faults: Vec::new() }
    }

    /// Takes a token, and answers whether it was one that may come and whole.
    fn take(&mut self, token: Token) -> bool {
        if !self.may_come(&token.kind) {
            self.faults.push(Refusal::at(71, token.start));
            return false;
        }
        if let Some(fault) = token.fault {
            self.faults.push(Refusal::at(71, fault));
            return false;
        }
        self.accept(token);
        true
    }

    fn may_come(&self, kind: &Kind) -> bool {
        use Expected::*;
        let starts_a_value = matches!(kind, Kind::Mark(b'{' | b'[') | Kind::Word(_) | Kind::Number(_));
        match (self.expected, kind) {
            (Value | ValueOrBracket | Key | KeyOrBrace, Kind::Text(_)) => true,
            (Value | ValueOrBracket, _) if starts_a_value => true,
            (ValueOrBracket, Kind::Mark(b']')) | (KeyOrBrace, Kind::Mark(b'}')) => true,
            (Colon, Kind::Mark(b':')) | (CommaOrClosing, Kind::Mark(b',')) => true,
            (CommaOrClosing, Kind::Mark(b']')) => matches!(self.open.last(), Some(Open::Array(_))),
            (CommaOrClosing, Kind::Mark(b'}')) => matches!(self.open.last(), Some(Open::Object(_))),
            _ => false,
        }
    }

    /// Goes on with a whole token that may come.
    fn accept(&mut self, token: Token) {
        match token.kind {
            Kind::Mark(b'[') => self.enter(Open::Array(Vec::new()), Expected::ValueOrBracket),
            Kind::Mark(b'{') => self.enter(Open::Object(Vec::new()), Expected::KeyOrBrace),
            Kind::Mark(b':') => self.expected = Expected::Value,
            Kind::Mark(b',') => {
                let in_array = matches!(self.open.last(), Some(Open::Array(_)));
                self.expected = if in_array { Expected::Value } else { Expected::Key };
            }
            Kind::Mark(_) => self.leave(),
            Kind::Word("null") => self.add(Json::Null),
            Kind::Word(word) => self.add(Json::Flag(word == "true")),
            Kind::Number(spelled) => {
                let scalar = scalar(&spelled);
                self.fault_if(scalar.is_none(), 73, token.start);
                self.add(Json::Number(scalar.unwrap_or(Scalar::Bare)));
            }
            Kind::Text(text) => match self.expected {
                Expected::Key | Expected::KeyOrBrace => self.add_key(text, token.start),
                _ => self.add(Json::Text(text)),
            },
            Kind::Unknown => unreachable!("such a byte may not come"),
        }
    }

    fn fault_if(&mut self, condition: bool, number: u8, place: usize) {
        if condition {
            self.faults.push(Refusal::at(number, place));
        }
    }

    fn enter(&mut self, open: Open, expected: Expected) {
        self.open.push(open);
        self.expected = expected;
    }

    fn add_key(&mut self, key: String, place: usize) {
        let Some(Open::Object(members)) = self.open.last_mut() else { unreachable!("a key is in an object") };
        let is_there = members.iter().any(|(other, _)| *other == key);
        members.push((key, None));
        self.fault_if(is_there, 72, place);
        self.expected = Expected::Colon;
    }

    /// Closes what was opened last, which is a value then.
    fn leave(&mut self) {
        let value = match self.open.pop().expect("something is open") {
            Open::Array(values) => Json::Array(values),
            Open::Object(members) => {
                let whole = |(key, value): (String, Option<Json>)| (key, value.expect("the member is whole"));
                Json::Object(members.into_iter().map(whole).collect())
            }
        };
        self.add(value);
    }

    /// Puts a whole value where it belongs.
    fn add(&mut self, value: Json) {
        self.expected = Expected::CommaOrClosing;
        match self.open.last_mut() {
            Some(Open::Array(values)) => values.push(value),
            Some(Open::Object(members)) => members.last_mut().expect("a key stands before").1 = Some(value),
            None => {
                self.whole = Some(value);
                self.expected = Expected::Nothing;
            }
        }
    }

    /// The whole value, or the leftmost fault, the lowest number of those at one place.
    fn finish(mut self, end: usize) -> Result<Json, Refusal> {
        let is_cut_short = self.whole.is_none() && self.faults.iter().all(|fault| fault.number != 71);
        self.fault_if(is_cut_short, 71, end);
        match self.faults.into_iter().min_by_key(|fault| (fault.place, fault.number)) {
            Some(fault) => Err(fault),
            None => Ok(self.whole.expect("a text without faults is whole")),
        }
    }
}

/// The count or rate of a number, by the standard library: a decimal of at most 15 digits that is rounded once is the
/// float that the one division gives. The two zeros are one.
fn scalar(spelled: &str) -> Option<Scalar> {
    if let Ok(count) = spelled.parse() {
        return Some(Scalar::Count(count));
    }
    let digits = spelled.bytes().filter(u8::is_ascii_digit).count();
    if spelled.contains(['e', 'E']) || digits > MAX_RATE_DIGITS {
        return None;
    }
    let rate: f64 = spelled.parse().expect("a decimal");
    Some(Scalar::Rate((rate + 0.0).to_bits()))
}

/// Makes trees of values, and numbers texts where they become leaves.
struct TreeBuilder<'a> {
    keys: Vec<&'a [u8]>,
    numbers: HashMap<String, u32>,
}

impl TreeBuilder<'_> {
    fn tree(&mut self, value: &Json) -> Tree {
        match value {
            Json::Null => leaf(NULL, Scalar::Bare),
            Json::Flag(flag) => leaf(FLAG, Scalar::Flag(*flag)),
            Json::Number(scalar) => leaf(NUMBER, *scalar),
            Json::Text(text) => self.text(text),
            Json::Array(values) => {
                let items = values.iter().map(|value| (ITEM, vec![self.tree(value)])).collect();
                chain(items, STOP)
            }
            Json::Object(members) => {
                let members = members.iter().map(|(key, value)| self.member(key, value)).collect();
                chain(members, END)
            }
        }
    }

    fn text(&mut self, text: &str) -> Tree {
        let next = self.numbers.len() as u32;
        leaf(TEXT, Scalar::Name(*self.numbers.entry(text.to_string()).or_insert(next)))
    }

    /// A member's symbol and its children but for the rest.
    fn member(&mut self, key: &str, value: &Json) -> (usize, Vec<Tree>) {
        match self.keys.iter().position(|line| *line == key.as_bytes()) {
            Some(line) => (FIRST_KEY + line, vec![self.tree(value)]),
            None => {
                let text = self.text(key);
                (OTHER, vec![text, self.tree(value)])
            }
        }
    }
}

fn leaf(symbol: usize, scalar: Scalar) -> Tree {
    Tree { symbol, scalar, children: Vec::new() }
}

/// Elements or members, each with those behind it as its last child.
fn chain(links: Vec<(usize, Vec<Tree>)>, last: usize) -> Tree {
    links.into_iter().rev().fold(leaf(last, Scalar::Bare), |rest, (symbol, mut children)| {
        children.push(rest);
        Tree { symbol, scalar: Scalar::Bare, children }
    })
}
