//! Term texts, sound ones and faulty ones, for refusals 63 to 67.

use reference::limits::{MAX_LEVELS, MAX_ROWS};
use reference::term_writer::text_within;
use reference::{Automaton, Scalar};

use crate::{documents, Random};

/// Texts past this length are not made here.
const LONGEST: usize = 40_000;
/// Texts of loads are no longer than this, so that their loads do not make too many different rows.
const SHORT: usize = 3000;

/// Zero as the writer spells it, and with a sign, which only the reader knows.
const ZERO: &[u8] = b"~0000000000000000";
const MINUS: &[u8] = b"~8000000000000000";

/// A text over a set's symbols with the names shown, faulty in so many of a hundred cases.
pub fn text(
    random: &mut Random,
    automaton: &Automaton,
    names: &[Vec<u8>],
    damaged_percent: usize,
) -> Vec<u8> {
    let mut text = sound(random, automaton, names).unwrap_or_default();
    if random.percent(damaged_percent) {
        match random.below(10) {
            0 => text = soup(random, names),
            1 => text = around_level_257(random, automaton, names),
            2 => text = misfit(random, automaton, names),
            _ => damage(random, &mut text, names),
        }
    }
    text
}

/// A text that reads to a sound document; rarely to one with about as many rows as a table can have.
fn sound(random: &mut Random, automaton: &Automaton, names: &[Vec<u8>]) -> Option<Vec<u8>> {
    let most = random.pick(&[1, 4, 12, 40]);
    let document = match random.below(50) {
        0 => {
            let rows = MAX_ROWS + random.pick(&[0, 0, 1, 2]);
            documents::broad(random, automaton, rows)?
        }
        1..=10 => documents::of_loads(random, automaton, most)?,
        _ => documents::document(random, automaton, most)?,
    };
    let mut text = text_within(&document, names, LONGEST).ok()?;
    spell_zeros(random, &mut text, 0);
    Some(text)
}

/// A text of loads, many of which are zeros of either sign. In half of the texts some zeros give way to other rates, so
/// that parts which tags ask to be equal are so no more.
pub fn of_loads(random: &mut Random, automaton: &Automaton, names: &[Vec<u8>]) -> Option<Vec<u8>> {
    let most = random.pick(&[4, 8, 16]);
    let document = documents::of_loads(random, automaton, most)?;
    let mut text = text_within(&document, names, SHORT).ok()?;
    let other_percent = random.pick(&[0, 0, 5, 20]);
    spell_zeros(random, &mut text, other_percent);
    Some(text)
}

/// Spells each zero anew with either sign, which reads to the same rows. In so many of a hundred cases a rate that
/// recurs takes its place, which mostly is another one.
fn spell_zeros(random: &mut Random, text: &mut [u8], other_percent: usize) {
    // In a sound text the mark stands before the 16 digits of a rate and nowhere else.
    let starts = (0..text.len()).filter(|&at| text[at..].starts_with(ZERO));
    for at in starts.collect::<Vec<usize>>() {
        let spelled = if random.percent(other_percent) {
            spelling(documents::rate(random, 0))
        } else {
            random.pick(&[ZERO, MINUS]).to_vec()
        };
        text[at..at + ZERO.len()].copy_from_slice(&spelled);
    }
}

/// Changes one to three places of a text.
fn damage(random: &mut Random, text: &mut Vec<u8>, names: &[Vec<u8>]) {
    for _ in 0..random.pick(&[1, 1, 1, 2, 3]) {
        let at = random.below(text.len() + 1);
        match random.below(6) {
            0 => text.truncate(at),
            1 if at < text.len() => drop(text.remove(at)),
            2 if at < text.len() => text[at] = byte(random),
            3 => text.splice(at..at, piece(random, names)).for_each(drop),
            4 => text.extend(piece(random, names)),
            _ => text.insert(at, byte(random)),
        }
    }
}

/// A byte that a term can hold, or one just outside.
fn byte(random: &mut Random) -> u8 {
    let telling = b"(),=~#0123456789abcdefsxz tru\n\r\0AFZg`{/:@[\xff";
    random.pick(telling)
}

/// A piece of text: a name, a scalar on an edge, a bracket.
fn piece(random: &mut Random, names: &[Vec<u8>]) -> Vec<u8> {
    const PIECES: [&[u8]; 26] = [
        b"(",
        b")",
        b",",
        b"()",
        b"=",
        b"=0",
        b"=00",
        b"=01",
        b"=true",
        b"=false",
        b"=tru",
        b"=truex",
        b"=18446744073709551615",
        b"=18446744073709551616",
        b"=18446744073709551620",
        b"=99999999999999999999",
        b"#4294967295",
        b"#4294967296",
        b"#05",
        b"~0123456789abcdef",
        b"~0123456789abcdeF",
        b"~0123456789abcdef0",
        MINUS,
        b"~80000000000000000",
        b"~",
        b"aaaaaaaaaaaaaaaaa",
    ];
    match random.below(4) {
        0 => random.pick(&PIECES).to_vec(),
        1 => spelling(documents::scalar(random)),
        2 => names[random.below(names.len())].clone(),
        _ => [&names[random.below(names.len())][..], random.pick(&PIECES)].concat(),
    }
}

/// A scalar as the writer spells it.
fn spelling(scalar: Scalar) -> Vec<u8> {
    match scalar {
        Scalar::Bare => Vec::new(),
        Scalar::Flag(flag) => format!("={flag}").into_bytes(),
        Scalar::Count(count) => format!("={count}").into_bytes(),
        Scalar::Name(name) => format!("#{name}").into_bytes(),
        Scalar::Rate(bits) => format!("~{bits:016x}").into_bytes(),
    }
}

/// Pieces after pieces.
fn soup(random: &mut Random, names: &[Vec<u8>]) -> Vec<u8> {
    (0..random.below(8)).flat_map(|_| piece(random, names)).collect()
}

/// A term with a number of children that may not be its symbol's.
fn misfit(random: &mut Random, automaton: &Automaton, names: &[Vec<u8>]) -> Vec<u8> {
    let leaf = (0..names.len()).find(|&symbol| automaton.arity(symbol) == 0).unwrap_or(0);
    let children = vec![names[leaf].clone(); random.between(1, 6)];
    let mut text = names[random.below(names.len())].clone();
    text.push(b'(');
    text.extend(children.join(&b','));
    text.push(b')');
    text.extend(piece(random, names).iter().take(random.below(3)));
    text
}

/// Opened brackets down to about level 257, with something there and sometimes everything closed again.
fn around_level_257(random: &mut Random, automaton: &Automaton, names: &[Vec<u8>]) -> Vec<u8> {
    let inner = (0..names.len()).find(|&symbol| automaton.arity(symbol) > 0).unwrap_or(0);
    let levels = MAX_LEVELS + random.pick(&[0, 1, 1, 1, 2]);
    nested(automaton, names, inner, levels, &piece(random, names))
}

/// A text of so many levels with something in place of the innermost term.
pub fn nested(
    automaton: &Automaton,
    names: &[Vec<u8>],
    inner: usize,
    levels: usize,
    innermost: &[u8],
) -> Vec<u8> {
    let leaf = (0..names.len()).find(|&symbol| automaton.arity(symbol) == 0).unwrap_or(0);
    let others = [b",", &names[leaf][..]].concat().repeat(automaton.arity(inner).saturating_sub(1));
    let opening = [&names[inner][..], b"("].concat().repeat(levels - 1);
    let closing = [&others[..], b")"].concat().repeat(levels - 1);
    [&opening[..], innermost, &closing[..]].concat()
}
