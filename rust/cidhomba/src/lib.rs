//! Shape sets and the documents that they let in: a safe wrapper over the verified library's C interface.
//!
//! A set is bytes in a stored form, with the tags of a state in one byte (the narrow form) or in two (the wide one), and
//! in the latter with rules of 12 bytes or of 14, the last two of which name tags to forget; a document is a table of rows
//! of ten 16-bit cells, a run is steps of six; `docs/FORMATS.md` in the repository lays them out, and term text and JSON
//! with their lists. Every function takes any input and either answers or refuses; a refusal writes to no result space.
//! Spaces are lent: what comes back is the part at their front that was written, the rest is unchanged; only the judge's
//! work space becomes zeros.
//!
//! A call needs at most 128 KiB of stack, and reading JSON at most 256 KiB; it allocates nothing, and keeps no state,
//! so that several threads may call at once.
//!
//! # Example
//!
//! Set E demands a pair of two leaves that are equal, each an `a` or a `b`: both are in state 0, whose tag goes to
//! one row only.
//!
//! ```
//! use cidhomba::*;
//!
//! const SET_E: [u8; 59] = [
//!     3, 0, 2, 0, 1, 0, 3, 0, // 3 symbols, 2 states, 1 tag, 3 rules
//!     16, 0, 19, 0, 23, 0, 59, 0, // where symbols, states and rules begin, and the end
//!     2, 0, 0, // pair has 2 children, a and b have none
//!     0, 1, 1, 0, // state 0 is not final and has tag 0; state 1 is final and has no tag
//!     0, 0, 1, 0, 0, 0, 0, 0, 255, 255, 255, 255, // pair(0,0) to 1
//!     1, 0, 0, 0, 255, 255, 255, 255, 255, 255, 255, 255, // a to 0
//!     2, 0, 0, 0, 255, 255, 255, 255, 255, 255, 255, 255, // b to 0
//! ];
//!
//! /// Whether set E lets in the document of a text.
//! fn let_in(text: &str) -> Result<bool, Refusal> {
//!     const ROOM: usize = 512;
//!     let names = Names { site: b"pair\na\nb", built_in: b"" };
//!     let mut rows = vec![0; ROW_CELLS * MAX_ROWS];
//!     let rows = read_term(&SET_E, names, text.as_bytes(), &mut rows)?;
//!     let (mut work, mut run) = (vec![0; ANNOTATION_CELLS * ROOM], vec![0; STEP_CELLS * ROOM]);
//!     let judgement = membership(&SET_E, rows, &mut work, &mut run)?;
//!     Ok(matches!(judgement, Judgement::Yes(_)))
//! }
//!
//! for text in ["pair(a=7,a=7)", "pair(a=7,a=8)", "pair(a=7,c)"] {
//!     match let_in(text) {
//!         Ok(true) => println!("{text}: let in"),
//!         Ok(false) => println!("{text}: turned away"),
//!         Err(refusal) => println!("{text}: {refusal}"),
//!     }
//! }
//! assert_eq!(let_in("pair(a=7,a=7)"), Ok(true));
//! assert_eq!(let_in("pair(a=7,a=8)"), Ok(false));
//! let refusal = let_in("pair(a=7,c)").unwrap_err();
//! assert_eq!(refusal.reason, Reason::NameUnknown);
//! assert_eq!(refusal.to_string(), "refused 65 at 9: the text has an unknown name");
//! ```
//!
//! The shorter examples at the functions take set E from `examples/e.set`; without names, `s0` is pair, `s1` is a
//! and `s2` is b.

pub mod interface;
mod refusal;
pub mod word;

pub use refusal::{Reason, Refusal};

/// 16-bit cells of a row: symbol, four child places, kind, four cells of payload.
pub const ROW_CELLS: usize = 10;
/// 16-bit cells of a step: rule, row, four step places.
pub const STEP_CELLS: usize = 6;
/// 16-bit cells of work space that make room for one annotation.
pub const ANNOTATION_CELLS: usize = 32;
/// Most rows of a table.
pub const MAX_ROWS: usize = 1024;
/// Most annotations for which there can be room, and most steps of a run.
pub const MAX_ROOM: usize = 4096;
/// Most states of a set: row space for so many serves every witness.
pub const MAX_STATES: usize = 256;
/// What stands in a child place or a step place that is not used.
pub const UNUSED: u16 = 65_535;
/// Length of the longest set: 64 symbols, 256 states of 3 bytes and 1,024 rules of 14.
pub const MAX_SET_BYTES: usize = 16 + 64 + 3 * 256 + 14 * 1024;
/// Bytes of text space that the programs have; a table whose rows are shared much may stand for a longer text.
pub const TEXT_BYTES: usize = 32_768;

/// Whether bytes are a sound set, in any of the three forms.
///
/// ```
/// use cidhomba::{check_automaton, Reason};
///
/// let set = include_bytes!("../../../examples/e.set");
/// assert_eq!(check_automaton(set), Ok(()));
/// let refusal = check_automaton(&set[..58]).unwrap_err();
/// assert_eq!(refusal.reason, Reason::SetLengths);
///
/// // Lists of equal pairs: the first of its rules, which have 14 bytes, forgets tag 0.
/// let mut pairs = *include_bytes!("../../../examples/pairs.set");
/// assert_eq!(check_automaton(&pairs), Ok(()));
/// pairs[41] = 2; // tag 1, which the set does not have
/// let refusal = check_automaton(&pairs).unwrap_err();
/// assert_eq!(refusal.reason, Reason::SetForgets);
/// ```
pub fn check_automaton(set: &[u8]) -> Result<(), Refusal> {
    Refusal::or_value(interface::check_automaton(set)).map(|_| ())
}

/// Whether rows are a sound table over a set's symbols. A rate is told by its bits, but for the zeros, which are one
/// load: -0.0, the rate with only its sign bit set, may not stand in a row.
///
/// ```
/// use cidhomba::{check_document, Reason, UNUSED as U};
///
/// let set = include_bytes!("../../../examples/e.set");
/// // s0(s1=7,s1=7): equal leaves are one row, and kind 2 is a count.
/// let mut rows = [[1, U, U, U, U, 2, 7, 0, 0, 0], [0, 0, 0, U, U, 0, 0, 0, 0, 0]].concat();
/// assert_eq!(check_document(set, &rows), Ok(()));
/// // Kind 3 is a rate, with the lowest 16 bits first: 0.0 may stand here, and -0.0 may not.
/// rows[5..10].copy_from_slice(&[3, 0, 0, 0, 0]);
/// assert_eq!(check_document(set, &rows), Ok(()));
/// rows[9] = 0x8000;
/// let refusal = check_document(set, &rows).unwrap_err();
/// assert_eq!(refusal.reason, Reason::RowScalar);
/// ```
pub fn check_document(set: &[u8], rows: &[u16]) -> Result<(), Refusal> {
    Refusal::or_value(interface::check_document(set, rows)).map(|_| ())
}

/// Whether steps are a run that shows that the set lets the document in.
///
/// ```
/// use cidhomba::{check_run, Reason, UNUSED as U};
///
/// let set = include_bytes!("../../../examples/e.set");
/// let rows = [[1, U, U, U, U, 2, 7, 0, 0, 0], [0, 0, 0, U, U, 0, 0, 0, 0, 0]].concat();
/// // Step 0: rule 1 on row 0. Step 1: rule 0 on row 1, with step 0 for both children.
/// let run = [[1, 0, U, U, U, U], [0, 1, 0, 0, U, U]].concat();
/// assert_eq!(check_run(set, &rows, &run), Ok(()));
/// let refusal = check_run(set, &rows, &run[..6]).unwrap_err();
/// assert_eq!(refusal.reason, Reason::RunEnd);
/// ```
pub fn check_run(set: &[u8], rows: &[u16], run: &[u16]) -> Result<(), Refusal> {
    Refusal::or_value(interface::check_run(set, rows, run)).map(|_| ())
}

/// What a judging finds.
#[derive(Clone, Copy, Debug, PartialEq, Eq)]
pub enum Judgement<'a> {
    /// The set lets the document in, and these steps are a run that shows it.
    Yes(&'a [u16]),
    /// The set does not let the document in.
    No,
}

/// Judges whether a set lets a document in. Room for `n` annotations is `32 * n` cells of work space; the run
/// space must then hold `6 * n` cells. The work space is all zeros afterwards, but untouched where set, table or
/// [`Reason::RunSpace`] refuse. No reason is about time: the question is NP-complete, and a set may make it hard.
///
/// ```
/// use cidhomba::*;
///
/// let set = include_bytes!("../../../examples/e.set");
/// let mut rows = [0; 3 * ROW_CELLS];
/// let (mut work, mut run) = ([0; 8 * ANNOTATION_CELLS], [0; 8 * STEP_CELLS]);
///
/// let equal = read_term(set, Names::default(), b"s0(s1=7,s1=7)", &mut rows)?;
/// let Judgement::Yes(steps) = membership(set, equal, &mut work, &mut run)? else { panic!("the leaves are equal") };
/// assert_eq!(check_run(set, equal, steps), Ok(()));
///
/// let unequal = read_term(set, Names::default(), b"s0(s1=7,s1=8)", &mut rows)?;
/// assert_eq!(membership(set, unequal, &mut work, &mut run), Ok(Judgement::No));
///
/// let refusal = membership(set, unequal, &mut work[..ANNOTATION_CELLS], &mut run).unwrap_err();
/// assert_eq!(refusal.reason, Reason::NoRoom);
/// # Ok::<(), Refusal>(())
/// ```
pub fn membership<'a>(
    set: &[u8],
    rows: &[u16],
    work: &mut [u16],
    run: &'a mut [u16],
) -> Result<Judgement<'a>, Refusal> {
    Ok(match Refusal::or_value(interface::membership(set, rows, work, run))? {
        0 => Judgement::No,
        steps => Judgement::Yes(&run[..STEP_CELLS * steps]),
    })
}

/// The set that lets in what either of two sets does, in the wide form, with rules of 14 bytes if either of the two has
/// them; a space of [`MAX_SET_BYTES`] holds every result.
///
/// ```
/// use cidhomba::{check_automaton, union, Reason, MAX_SET_BYTES};
///
/// let set = include_bytes!("../../../examples/e.set");
/// let mut out = [0; MAX_SET_BYTES];
/// let either = union(set, set, &mut out)?;
/// assert_eq!(either.len(), 103);
/// assert_eq!(check_automaton(either), Ok(()));
/// let refusal = union(set, set, &mut out[..102]).unwrap_err();
/// assert_eq!(refusal.reason, Reason::ResultSpace);
/// # Ok::<(), cidhomba::Refusal>(())
/// ```
pub fn union<'a>(first: &[u8], second: &[u8], out: &'a mut [u8]) -> Result<&'a [u8], Refusal> {
    let length = Refusal::or_value(interface::union(first, second, out))?;
    Ok(&out[..length])
}

/// The set that lets in what both of two sets do, in the wide form, with rules of 14 bytes if either of the two has them;
/// a space of [`MAX_SET_BYTES`] holds every result.
///
/// ```
/// use cidhomba::{check_automaton, product, Reason, MAX_SET_BYTES};
///
/// let set = include_bytes!("../../../examples/e.set");
/// let agreed = include_bytes!("../../../examples/agreed.set");
/// let mut out = [0; MAX_SET_BYTES];
/// let both = product(set, set, &mut out)?;
/// assert_eq!(both.len(), 67);
/// assert_eq!(check_automaton(both), Ok(()));
/// let refusal = product(set, agreed, &mut out).unwrap_err();
/// assert_eq!(refusal.reason, Reason::SetsDiffer);
/// # Ok::<(), cidhomba::Refusal>(())
/// ```
pub fn product<'a>(first: &[u8], second: &[u8], out: &'a mut [u8]) -> Result<&'a [u8], Refusal> {
    let length = Refusal::or_value(interface::product(first, second, out))?;
    Ok(&out[..length])
}

/// A narrow set in the wide form, which has the tags of a state in two bytes and lets in the same documents. The set may
/// not be wide already; a space of [`MAX_SET_BYTES`] holds every result, as for the other moves.
///
/// ```
/// use cidhomba::{check_automaton, widen_states, Reason, MAX_SET_BYTES};
///
/// let set = include_bytes!("../../../examples/e.set");
/// let (mut out, mut again) = ([0; MAX_SET_BYTES], [0; MAX_SET_BYTES]);
/// let wide = widen_states(set, &mut out)?;
/// assert_eq!(wide.len(), set.len() + 2); // one byte more for each of two states
/// assert_eq!(check_automaton(wide), Ok(()));
/// let refusal = widen_states(wide, &mut again).unwrap_err();
/// assert_eq!(refusal.reason, Reason::SetForm);
/// # Ok::<(), cidhomba::Refusal>(())
/// ```
pub fn widen_states<'a>(set: &[u8], out: &'a mut [u8]) -> Result<&'a [u8], Refusal> {
    let length = Refusal::or_value(interface::widen_states(set, out))?;
    Ok(&out[..length])
}

/// A wide set in the narrow form, which has the tags of a state in one byte and lets in the same documents. The set must be
/// wide, have no rules of 14 bytes, and have at most 8 tags, whether or not a state carries them. Widening and narrowing
/// undo each other byte for byte.
///
/// ```
/// use cidhomba::{narrow_states, union, widen_states, Reason, MAX_SET_BYTES};
///
/// let set = include_bytes!("../../../examples/e.set");
/// let (mut out, mut back) = ([0; MAX_SET_BYTES], [0; MAX_SET_BYTES]);
/// let wide = widen_states(set, &mut out)?;
/// assert_eq!(narrow_states(wide, &mut back)?, set);
/// let mut many = wide.to_vec();
/// many[4] = 9; // the header's number of tags
/// let refusal = narrow_states(&many, &mut back).unwrap_err();
/// assert_eq!(refusal.reason, Reason::SetTags);
/// let either = union(set, set, &mut out)?; // unions are wide
/// assert_eq!(narrow_states(either, &mut back)?.len(), either.len() - 4);
/// # Ok::<(), cidhomba::Refusal>(())
/// ```
pub fn narrow_states<'a>(set: &[u8], out: &'a mut [u8]) -> Result<&'a [u8], Refusal> {
    let length = Refusal::or_value(interface::narrow_states(set, out))?;
    Ok(&out[..length])
}

/// A wide set with rules of 14 bytes in place of 12, which name no tags to forget, so that it lets in the same documents.
/// The set must be wide and have rules of 12 bytes, or none: then its bytes stay as they are.
///
/// ```
/// use cidhomba::{check_automaton, widen_rules, Reason, MAX_SET_BYTES};
///
/// let set = include_bytes!("../../../examples/e-wide.set");
/// let (mut out, mut again) = ([0; MAX_SET_BYTES], [0; MAX_SET_BYTES]);
/// let long = widen_rules(set, &mut out)?;
/// assert_eq!(long.len(), set.len() + 6); // two bytes more for each of three rules
/// assert_eq!(check_automaton(long), Ok(()));
/// let refusal = widen_rules(long, &mut again).unwrap_err();
/// assert_eq!(refusal.reason, Reason::SetForm);
/// let narrow = include_bytes!("../../../examples/e.set"); // its states must be widened first
/// let refusal = widen_rules(narrow, &mut again).unwrap_err();
/// assert_eq!(refusal.reason, Reason::SetForm);
/// # Ok::<(), cidhomba::Refusal>(())
/// ```
pub fn widen_rules<'a>(set: &[u8], out: &'a mut [u8]) -> Result<&'a [u8], Refusal> {
    let length = Refusal::or_value(interface::widen_rules(set, out))?;
    Ok(&out[..length])
}

/// A wide set with rules of 12 bytes in place of 14, which lets in the same documents. The set must be wide and have rules
/// of 14 bytes, or none: then its bytes stay as they are. No rule may name a tag to forget, whether or not that has an
/// effect. Widening and narrowing undo each other byte for byte.
///
/// ```
/// use cidhomba::{narrow_rules, widen_rules, Reason, MAX_SET_BYTES};
///
/// let set = include_bytes!("../../../examples/e-wide.set");
/// let (mut out, mut back) = ([0; MAX_SET_BYTES], [0; MAX_SET_BYTES]);
/// let long = widen_rules(set, &mut out)?;
/// assert_eq!(narrow_rules(long, &mut back)?, set);
/// let refusal = narrow_rules(set, &mut back).unwrap_err();
/// assert_eq!(refusal.reason, Reason::SetForm);
/// let pairs = include_bytes!("../../../examples/pairs.set"); // its first rule forgets tag 0
/// let refusal = narrow_rules(pairs, &mut back).unwrap_err();
/// assert_eq!(refusal.reason, Reason::RuleForgets);
/// # Ok::<(), cidhomba::Refusal>(())
/// ```
pub fn narrow_rules<'a>(set: &[u8], out: &'a mut [u8]) -> Result<&'a [u8], Refusal> {
    let length = Refusal::or_value(interface::narrow_rules(set, out))?;
    Ok(&out[..length])
}

/// Whether a set lets in anything.
#[derive(Clone, Copy, Debug, PartialEq, Eq)]
pub enum Witness<'a> {
    /// The set lets in no document.
    Dead,
    /// The set lets in this document, and none with fewer levels.
    Live {
        /// The document.
        rows: &'a [u16],
        /// Its levels, a leaf alone having one.
        levels: usize,
    },
}

/// Answers dead, or live with a lowest document. The row space must hold as many rows as the set has states; one
/// for [`MAX_STATES`] rows serves every set.
///
/// ```
/// use cidhomba::*;
///
/// let set = include_bytes!("../../../examples/e.set");
/// let (mut rows, mut text) = ([0; ROW_CELLS * MAX_STATES], [0; 40]);
/// let Witness::Live { rows, levels } = witness(set, &mut rows)? else { panic!("set E lets in a pair") };
/// assert_eq!(levels, 2);
/// assert_eq!(write_term(set, Names::default(), rows, &mut text)?, b"s0(s1,s1)");
///
/// let dead = include_bytes!("../../../examples/dead.set");
/// let mut space = [0; ROW_CELLS * MAX_STATES];
/// assert_eq!(witness(dead, &mut space), Ok(Witness::Dead));
/// let refusal = witness(dead, &mut space[..ROW_CELLS]).unwrap_err();
/// assert_eq!(refusal.reason, Reason::RowSpace);
/// # Ok::<(), Refusal>(())
/// ```
pub fn witness<'a>(set: &[u8], rows: &'a mut [u16]) -> Result<Witness<'a>, Refusal> {
    Ok(match Refusal::or_value(interface::witness(set, rows))? {
        0 => Witness::Dead,
        value => Witness::Live { rows: &rows[..ROW_CELLS * (value % 65_536)], levels: value / 65_536 },
    })
}

/// The two name lists of term text, line i for symbol i: the site's, and the one built in. Both may be empty. A
/// symbol is shown by its line in the site's list, else by that in the other, else by `s` and its number. Spaces and
/// bytes 13 at the end of a line are no part of it, so that a list with line ends of Windows serves as it is.
///
/// ```
/// use cidhomba::{read_term, write_term, Names, ROW_CELLS};
///
/// let set = include_bytes!("../../../examples/e.set");
/// let windows = Names { site: b"pair\r\na\r\n", built_in: b"" };
/// let (mut rows, mut text) = ([0; 3 * ROW_CELLS], [0; 40]);
/// let rows = read_term(set, windows, b"pair(a=7,s2)", &mut rows)?;
/// assert_eq!(write_term(set, windows, rows, &mut text)?, b"pair(a=7,s2)");
/// # Ok::<(), cidhomba::Refusal>(())
/// ```
#[derive(Clone, Copy, Debug, Default)]
pub struct Names<'a> {
    /// The site's list.
    pub site: &'a [u8],
    /// The list built in.
    pub built_in: &'a [u8],
}

/// Reads term text into rows; space for [`MAX_ROWS`] rows serves every text. A refusal of text has a place. The rate
/// `~8000000000000000`, which is -0.0, is read as 0.0, and so written back with zeros.
///
/// ```
/// use cidhomba::{read_term, Names, Reason, Refusal, MAX_ROWS, ROW_CELLS};
///
/// let set = include_bytes!("../../../examples/e.set");
/// let names = Names { site: b"pair\na\nb", built_in: b"" };
/// let mut rows = [0; ROW_CELLS * MAX_ROWS];
/// let read = read_term(set, names, b"pair(a=7,a=7)", &mut rows)?;
/// assert_eq!(read.len(), 2 * ROW_CELLS); // equal leaves are one row
/// let refusal = read_term(set, names, b"pair(a=7)", &mut rows).unwrap_err();
/// assert_eq!(refusal, Refusal { reason: Reason::TermChildren, place: Some(0) });
/// # Ok::<(), Refusal>(())
/// ```
pub fn read_term<'a>(
    set: &[u8],
    names: Names,
    text: &[u8],
    rows: &'a mut [u16],
) -> Result<&'a [u16], Refusal> {
    let count = Refusal::or_value(interface::read_term(set, names.site, names.built_in, text, rows))?;
    Ok(&rows[..ROW_CELLS * count])
}

/// Writes a table's tree as term text. Reading it gives a table of the same tree, with rows numbered by first
/// finishing from the left; the same rows where they are in that order already.
///
/// ```
/// use cidhomba::{read_term, write_term, Names, Reason, MAX_ROWS, ROW_CELLS};
///
/// let set = include_bytes!("../../../examples/e.set");
/// let names = Names { site: b"pair\na\nb", built_in: b"" };
/// let (mut rows, mut text) = ([0; ROW_CELLS * MAX_ROWS], [0; 40]);
/// let rows = read_term(set, Names::default(), b"s0(s1=7,s2)", &mut rows)?;
/// assert_eq!(write_term(set, names, rows, &mut text)?, b"pair(a=7,b)");
/// let refusal = write_term(set, names, rows, &mut text[..10]).unwrap_err();
/// assert_eq!(refusal.reason, Reason::TextSpace);
/// # Ok::<(), cidhomba::Refusal>(())
/// ```
pub fn write_term<'a>(
    set: &[u8],
    names: Names,
    rows: &[u16],
    text: &'a mut [u8],
) -> Result<&'a [u8], Refusal> {
    let length = Refusal::or_value(interface::write_term(set, names.site, names.built_in, rows, text))?;
    Ok(&text[..length])
}

/// Reads JSON (RFC 8259) into rows; space for [`MAX_ROWS`] rows serves every text. The symbols are those of a list of
/// keys, a line for each: `end` 0, `stop` 1, `other` 2, `item` 3, `null` 4, `flag` 5, `number` 6, `text` 7, and 8 + i for
/// line i; a set that judges the rows must have them. A refusal has a place, but for [`Reason::KeyList`].
///
/// ```
/// use cidhomba::{read_json, Reason, Refusal, MAX_ROWS, ROW_CELLS};
///
/// let keys = b"name\nweight\n";
/// let mut rows = [0; ROW_CELLS * MAX_ROWS];
/// let read = read_json(keys, br#"{"name":"web01","weight":30}"#, &mut rows)?;
/// assert_eq!(read.len(), 5 * ROW_CELLS); // a text, a number, the object's end, and a row for each key
/// assert_eq!(read[4 * ROW_CELLS], 8); // the last row has the symbol of the first key
/// let refusal = read_json(keys, br#"{"name":1,"name":2}"#, &mut rows).unwrap_err();
/// assert_eq!(refusal, Refusal { reason: Reason::KeyRepeated, place: Some(10) });
/// # Ok::<(), Refusal>(())
/// ```
pub fn read_json<'a>(keys: &[u8], text: &[u8], rows: &'a mut [u16]) -> Result<&'a [u16], Refusal> {
    let count = Refusal::or_value(interface::read_json(keys, text, rows))?;
    Ok(&rows[..ROW_CELLS * count])
}
