//! An export whose servers have sixteen parts each that must be the same for all of them, and the set that demands it with
//! a tag for each part: as many tags as a set can have, which only the wide form can hold.
//!
//! An export is a chain of servers, and a server's line a chain of links with two of the parts each and a value of the
//! server's own. So no two lines share a link, and the memory that a line leaves has a row for each tag.

use reference::examples::{rule, state};
use reference::limits::MAX_TAGS;
use reference::{Automaton, Document, Row, Rule, Scalar};

use crate::documents::thinned;

/// Parts of a server; part k has tag k.
pub const PARTS: usize = MAX_TAGS;
/// Links of a line, each with two parts.
const LINKS: usize = PARTS / 2;

/// Symbols: a server has its line and the rest of the chain, a link two parts, an own value and the rest of the line.
const SERVER: usize = 0;
const LINK: usize = 1;
const END: usize = 2;
const OWN: usize = 3;
const FIRST_PART: usize = 4;

/// States: the end, an own value, a chain of servers, then the parts, then the lines from each link on.
const AT_THE_END: usize = 0;
const OWN_VALUE: usize = 1;
const SERVERS: usize = 2;
const FIRST_PART_STATE: usize = 3;
const FIRST_LINE: usize = FIRST_PART_STATE + PARTS;

/// The set that lets in a chain of servers whose parts are the same: 20 symbols, 27 states, 16 tags, 28 rules.
pub fn wide_set() -> Automaton {
    let part = |number: usize| FIRST_PART_STATE + number;
    let rest = |link: usize| if link + 1 == LINKS { AT_THE_END } else { FIRST_LINE + link + 1 };
    let line = |link: usize| {
        rule(LINK, &[part(2 * link), part(2 * link + 1), OWN_VALUE, rest(link)], FIRST_LINE + link)
    };
    let mut rules: Vec<Rule> = (0..LINKS).map(line).collect();
    rules.extend([AT_THE_END, SERVERS].map(|rest| rule(SERVER, &[FIRST_LINE, rest], SERVERS)));
    rules.extend([rule(END, &[], AT_THE_END), rule(OWN, &[], OWN_VALUE)]);
    rules.extend((0..PARTS).map(|number| rule(FIRST_PART + number, &[], part(number))));
    rules.sort();
    let tags = |number: usize| (0..PARTS).find(|&tag| part(tag) == number).map_or(0, |tag| 1 << tag);
    Automaton {
        arities: [vec![2, 4, 0, 0], vec![0; PARTS]].concat(),
        states: (0..FIRST_LINE + LINKS).map(|number| state(number == SERVERS, tags(number))).collect(),
        tag_count: PARTS,
        rules,
    }
}

/// An export of so many servers. The last one may have one part that is another.
pub fn wide_export(servers: usize, other_part: Option<usize>) -> Document {
    let mut rows = vec![leaf(END, Scalar::Bare)];
    let mut chain = 0;
    for server in 0..servers {
        let other_part = other_part.filter(|_| server + 1 == servers);
        let line = push_line(&mut rows, server, other_part);
        chain = push(&mut rows, over(SERVER, &[line, chain]));
    }
    thinned(&rows)
}

/// Adds the rows of a server's line, from its last link to its first.
fn push_line(rows: &mut Vec<Row>, server: usize, other_part: Option<usize>) -> usize {
    let part = |number: usize| {
        let name = if other_part == Some(number) { 700 } else { 500 };
        leaf(FIRST_PART + number, Scalar::Name(name + number as u32))
    };
    (0..LINKS).rev().fold(0, |rest, link| {
        let first = push(rows, part(2 * link));
        let second = push(rows, part(2 * link + 1));
        let own = push(rows, leaf(OWN, Scalar::Count((LINKS * server + link) as u64)));
        push(rows, over(LINK, &[first, second, own, rest]))
    })
}

/// Adds a row, and answers its number.
fn push(rows: &mut Vec<Row>, row: Row) -> usize {
    rows.push(row);
    rows.len() - 1
}

fn leaf(symbol: usize, scalar: Scalar) -> Row {
    Row { symbol, children: Vec::new(), scalar }
}

fn over(symbol: usize, children: &[usize]) -> Row {
    Row { symbol, children: children.to_vec(), scalar: Scalar::Bare }
}

#[cfg(test)]
mod tests {
    use super::*;
    use reference::limits::MAX_ROWS;
    use reference::membership::judge;
    use reference::stored::check_with_form;
    use reference::{check_document, Form};

    fn is_let_in(set: &Automaton, document: &Document) -> bool {
        judge(set, document, MAX_ROWS).expect("an annotation a row at most").is_yes()
    }

    #[test]
    fn the_set_is_sound_and_wide_and_the_exports_are_sound() {
        let set = wide_set().encode();
        assert_eq!(check_with_form(&set), Ok((Form::Wide, wide_set())));
        assert_eq!((wide_set().states.len(), wide_set().rules.len()), (27, 28));
        for servers in [1, 2, 20, 59] {
            let export = wide_export(servers, None);
            assert_eq!(export.rows.len(), 17 * (servers + 1));
            assert!(check_document(&set, &export.cells()).is_ok());
        }
    }

    #[test]
    fn servers_with_the_same_parts_are_let_in() {
        for servers in [1, 2, 20, 59] {
            assert!(is_let_in(&wide_set(), &wide_export(servers, None)), "{servers} servers");
        }
    }

    #[test]
    fn each_part_that_is_another_is_turned_away_by_its_tag_alone() {
        for part in 0..PARTS {
            let export = wide_export(3, Some(part));
            assert!(!is_let_in(&wide_set(), &export), "part {part}");
            let mut without = wide_set();
            without.states.iter_mut().for_each(|state| state.tags &= !(1 << part));
            assert!(is_let_in(&without, &export), "part {part} without its tag");
        }
    }
}
