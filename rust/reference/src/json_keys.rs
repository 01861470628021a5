//! The signature of JSON and the list of keys that a site gives it (document 02, Wish 1), refusal 74.

use std::collections::HashSet;

use crate::limits::{MAX_KEYS, MAX_KEY_BYTES};
use crate::names::plain_lines;
use crate::refusal::{refuse_if, Refusal};

/// Closes an object.
pub const END: usize = 0;
/// Closes an array.
pub const STOP: usize = 1;
/// A key that is not listed: its text, its value and the rest of the object.
pub const OTHER: usize = 2;
/// An element of an array and the rest of the array.
pub const ITEM: usize = 3;
pub const NULL: usize = 4;
pub const FLAG: usize = 5;
pub const NUMBER: usize = 6;
pub const TEXT: usize = 7;
/// The symbol of the first key of the list: a value and the rest of the object. That of line i is i further.
pub const FIRST_KEY: usize = 8;

/// The numbers of children of the signature's symbols, for a list of so many keys.
pub fn arities(keys: usize) -> Vec<u8> {
    [vec![0, 0, 3, 2, 0, 0, 0, 0], vec![2; keys]].concat()
}

/// The keys of a list, once it has been checked. Nothing is trimmed, and a key may have any bytes but byte 10.
pub fn check_keys(list: &[u8]) -> Result<Vec<&[u8]>, Refusal> {
    let keys = plain_lines(list);
    let distinct: HashSet<&&[u8]> = keys.iter().collect();
    let has_a_wrong_line = keys.iter().any(|key| key.is_empty() || key.len() > MAX_KEY_BYTES);
    refuse_if(keys.len() > MAX_KEYS || has_a_wrong_line || distinct.len() < keys.len(), 74)?;
    Ok(keys)
}
