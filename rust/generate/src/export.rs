//! The agreed statistics export of a hosting firm: its symbols, the set that demands its shape, and exports of any size.
//!
//! An export is a head and a chain of servers. The head has the names of the columns, the pool and the time; so
//! has each server, beside its fields, and by three tags these are the head's. Columns and fields are chains that
//! hold three in each link, so that a field that joins pushes all behind it along, as in a line of a file.

use reference::examples::{rule, state};
use reference::limits::{MAX_ROWS, ROW_CELLS};
use reference::{read_term, Automaton, Document, Rule};

/// The symbols by the names that a site shows for them, with their numbers of children.
const SYMBOLS: [(&str, u8); 26] = [
    ("export", 2),
    ("head", 3),
    ("server", 4),
    ("stamp", 2),
    ("columns", 4),
    ("fields", 4),
    ("end", 0),
    ("pool", 0),
    ("time", 0),
    ("column", 0),
    ("name", 0),
    ("address", 0),
    ("weight", 0),
    ("sessions", 0),
    ("limit", 0),
    ("rate", 0),
    ("bytesin", 0),
    ("bytesout", 0),
    ("checks", 0),
    ("downtime", 0),
    ("load", 0),
    ("up", 0),
    ("down", 0),
    ("drain", 0),
    ("queue", 0),
    ("none", 0),
];

/// The states by what they stand for. The first three carry the tags 0, 1 and 2; the last is final.
const STATES: [&str; 34] = [
    "columns",
    "pool",
    "time",
    "stamp",
    "end",
    "column",
    "columns 4",
    "columns 3",
    "columns 2",
    "name",
    "address",
    "weight",
    "sessions",
    "limit",
    "rate",
    "bytesin",
    "bytesout",
    "checks",
    "downtime",
    "load",
    "up",
    "down",
    "up fields 4",
    "up fields 3",
    "up fields 2",
    "up fields",
    "down fields 4",
    "down fields 3",
    "down fields 2",
    "down fields",
    "some up",
    "none up",
    "head",
    "export",
];

/// The rules: symbol, states of the children, target. A server that drains counts as down, and one at least is up.
const RULES: [(&str, &[&str], &str); 39] = [
    ("export", &["head", "some up"], "export"),
    ("head", &["columns", "pool", "time"], "head"),
    ("server", &["columns", "stamp", "up fields", "end"], "some up"),
    ("server", &["columns", "stamp", "up fields", "some up"], "some up"),
    ("server", &["columns", "stamp", "up fields", "none up"], "some up"),
    ("server", &["columns", "stamp", "down fields", "end"], "none up"),
    ("server", &["columns", "stamp", "down fields", "some up"], "some up"),
    ("server", &["columns", "stamp", "down fields", "none up"], "none up"),
    ("stamp", &["pool", "time"], "stamp"),
    ("columns", &["column", "column", "column", "end"], "columns 4"),
    ("columns", &["column", "column", "column", "columns 4"], "columns 3"),
    ("columns", &["column", "column", "column", "columns 3"], "columns 2"),
    ("columns", &["column", "column", "column", "columns 2"], "columns"),
    ("fields", &["downtime", "load", "up", "end"], "up fields 4"),
    ("fields", &["bytesin", "bytesout", "checks", "up fields 4"], "up fields 3"),
    ("fields", &["sessions", "limit", "rate", "up fields 3"], "up fields 2"),
    ("fields", &["name", "address", "weight", "up fields 2"], "up fields"),
    ("fields", &["downtime", "load", "down", "end"], "down fields 4"),
    ("fields", &["bytesin", "bytesout", "checks", "down fields 4"], "down fields 3"),
    ("fields", &["sessions", "limit", "rate", "down fields 3"], "down fields 2"),
    ("fields", &["name", "address", "weight", "down fields 2"], "down fields"),
    ("end", &[], "end"),
    ("pool", &[], "pool"),
    ("time", &[], "time"),
    ("column", &[], "column"),
    ("name", &[], "name"),
    ("address", &[], "address"),
    ("weight", &[], "weight"),
    ("sessions", &[], "sessions"),
    ("limit", &[], "limit"),
    ("rate", &[], "rate"),
    ("bytesin", &[], "bytesin"),
    ("bytesout", &[], "bytesout"),
    ("checks", &[], "checks"),
    ("downtime", &[], "downtime"),
    ("load", &[], "load"),
    ("up", &[], "up"),
    ("down", &[], "down"),
    ("drain", &[], "down"),
];

/// The number of a symbol.
fn symbol(name: &str) -> usize {
    SYMBOLS.iter().position(|(other, _)| *other == name).expect("a symbol of the export")
}

/// The number of a state.
fn state_number(name: &str) -> usize {
    STATES.iter().position(|other| *other == name).expect("a state of the agreed set")
}

fn stored_rule(&(name, children, target): &(&str, &[&str], &str)) -> Rule {
    let children: Vec<usize> = children.iter().map(|child| state_number(child)).collect();
    rule(symbol(name), &children, state_number(target))
}

/// The set that demands the agreed shape: 26 symbols, 34 states, 3 tags, 39 rules.
pub fn agreed_set() -> Automaton {
    let mut rules: Vec<Rule> = RULES.iter().map(stored_rule).collect();
    rules.sort();
    Automaton {
        arities: SYMBOLS.iter().map(|(_, arity)| *arity).collect(),
        states: (0..STATES.len())
            .map(|number| state(number == STATES.len() - 1, if number < 3 { 1 << number } else { 0 }))
            .collect(),
        tag_count: 3,
        rules,
    }
}

/// The agreed set without the rule for `end`, so that no chain ever ends: nothing satisfies it.
pub fn dead_set() -> Automaton {
    let mut set = agreed_set();
    set.rules.retain(|rule| rule.symbol != symbol("end"));
    set
}

/// The site's name list: line i is the name of symbol i.
pub fn name_list() -> String {
    SYMBOLS.map(|(name, _)| format!("{name}\n")).concat()
}

/// Which columns the lines of an export have.
#[derive(Clone, Copy, PartialEq, Eq)]
pub enum Columns {
    /// The twelve that were agreed.
    Agreed,
    /// A thirteenth, the queue's length, between address and weight, in the head and in every line.
    WithQueue,
    /// The agreed ones, but the last server's line names two of them in the other order.
    SwappedOnce,
}

/// An export of so many servers, as text without name lists.
pub fn export_text(servers: usize, columns: Columns) -> String {
    let head = term("head", &[column_names(columns, false), pool(), time()]);
    let mut chain = term("end", &[]);
    for server in (0..servers).rev() {
        let names = column_names(columns, server + 1 == servers);
        let stamp = term("stamp", &[pool(), time()]);
        chain = term("server", &[names, stamp, fields(server, columns), chain]);
    }
    term("export", &[head, chain])
}

/// An export of so many servers, as a table.
pub fn export(servers: usize, columns: Columns) -> Document {
    let text = export_text(servers, columns);
    let read = read_term(&agreed_set().encode(), b"", b"", text.as_bytes(), ROW_CELLS * MAX_ROWS);
    read.expect("an export is sound text")
}

/// A term without name lists: `s` and the number of the symbol, then the children.
fn term(name: &str, children: &[String]) -> String {
    let list = if children.is_empty() { String::new() } else { format!("({})", children.join(",")) };
    format!("s{}{list}", symbol(name))
}

/// A leaf with the text of its scalar.
fn leaf(name: &str, scalar: String) -> String {
    format!("s{}{scalar}", symbol(name))
}

fn pool() -> String {
    leaf("pool", "#7".to_string())
}

fn time() -> String {
    leaf("time", "=1794760200".to_string())
}

/// A chain of links that hold three each; the last link is filled up with `none`.
fn chain(link: &str, parts: &[String]) -> String {
    let none = term("none", &[]);
    parts.chunks(3).rev().fold(term("end", &[]), |rest, three| {
        let part = |place: usize| three.get(place).unwrap_or(&none).clone();
        term(link, &[part(0), part(1), part(2), rest])
    })
}

/// The names of the columns, by their numbers in the firm's list; the queue's length is number 40.
fn column_names(columns: Columns, is_last_line: bool) -> String {
    let mut numbers: Vec<usize> = (21..33).collect();
    if columns == Columns::WithQueue {
        numbers.insert(2, 40);
    }
    if columns == Columns::SwappedOnce && is_last_line {
        numbers.swap(2, 3);
    }
    let names: Vec<String> = numbers.iter().map(|number| leaf("column", format!("#{number}"))).collect();
    chain("columns", &names)
}

/// The fields of a server: twelve, or thirteen with the queue's length. Some values recur, some are a server's own.
fn fields(server: usize, columns: Columns) -> String {
    let count = |name: &str, value: usize| leaf(name, format!("={value}"));
    let rate = |name: &str, value: f64| leaf(name, format!("~{:016x}", value.to_bits()));
    let status = ["up", "up", "up", "drain", "up", "down", "up"][server % 7];
    let mut fields = vec![
        leaf("name", format!("#{}", 500 + server)),
        count("address", 167_772_160 + 11 * server),
        count("weight", 10 * (1 + server % 5)),
        count("sessions", 40 + 17 * server % 29),
        count("limit", 2000),
        rate("rate", 0.5 * (server * 7 % 31) as f64),
        count("bytesin", 90_210 * (server + 3)),
        count("bytesout", 1_048_583 * (server + 1)),
        count("checks", server % 4),
        count("downtime", 60 * (server % 3)),
        rate("load", 0.125 * (server * 5 % 13) as f64),
        leaf(status, String::new()),
    ];
    if columns == Columns::WithQueue {
        fields.insert(2, count("queue", 90 - server % 8));
    }
    chain("fields", &fields)
}

#[cfg(test)]
mod tests {
    use super::*;
    use reference::membership::judge;
    use reference::{check_automaton, witness};

    #[test]
    fn the_sets_are_sound_one_live_and_one_dead() {
        let (agreed, dead) = (agreed_set().encode(), dead_set().encode());
        assert_eq!(check_automaton(&agreed), Ok(agreed_set()));
        assert!(witness(&agreed, ROW_CELLS * 34).expect("tags are apart").is_some());
        assert_eq!(witness(&dead, ROW_CELLS * 34), Ok(None));
    }

    #[test]
    fn only_the_agreed_columns_are_let_in() {
        for servers in [1, 6, 30, 60, 80] {
            for (columns, expected) in
                [(Columns::Agreed, true), (Columns::WithQueue, false), (Columns::SwappedOnce, false)]
            {
                let export = export(servers, columns);
                assert!(export.rows.len() <= MAX_ROWS);
                let judgement = judge(&agreed_set(), &export, MAX_ROWS).expect("an annotation a row at most");
                assert_eq!(judgement.is_yes(), expected, "{servers} servers");
            }
        }
    }

    #[test]
    fn names_swapped_in_one_line_are_turned_away_by_the_tag_alone() {
        let mut untagged = agreed_set();
        untagged.states.iter_mut().for_each(|state| state.tags = 0);
        let export = export(6, Columns::SwappedOnce);
        assert!(judge(&untagged, &export, MAX_ROWS).expect("room").is_yes());
    }
}
