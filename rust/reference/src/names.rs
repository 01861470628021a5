//! The two name lists and the names shown (document 01, "Term text", and document 02, Wish 5), refusals 61 and 62.

use std::collections::HashSet;

use crate::limits::{MAX_LIST_LINES, MAX_NAME_BYTES};
use crate::refusal::{refuse_if, Refusal};

/// The name shown for each of a set's symbols, once both lists have been checked.
pub fn check_names(site: &[u8], built_in: &[u8], symbols: usize) -> Result<Vec<Vec<u8>>, Refusal> {
    refuse_if(list_is_wrong(site) || list_is_wrong(built_in), 61)?;
    let shown: Vec<Vec<u8>> = (0..symbols).map(|symbol| shown_name(site, built_in, symbol)).collect();
    let distinct: HashSet<&Vec<u8>> = shown.iter().collect();
    refuse_if(distinct.len() < shown.len(), 62)?;
    Ok(shown)
}

/// The lines of a list as they stand: byte 10 ends a line, and bytes after the last one are a line too.
pub fn plain_lines(list: &[u8]) -> Vec<&[u8]> {
    let mut lines: Vec<&[u8]> = list.split(|&byte| byte == 10).collect();
    if lines.last().is_some_and(|after_last| after_last.is_empty()) {
        lines.pop();
    }
    lines
}

/// The lines of a name list, trimmed; a line of which nothing is left is one too.
pub fn lines(list: &[u8]) -> Vec<&[u8]> {
    plain_lines(list).into_iter().map(trimmed).collect()
}

/// A line without the spaces and bytes 13 at its end, where editors on Windows leave them.
fn trimmed(mut line: &[u8]) -> &[u8] {
    while let [before @ .., b' ' | 13] = line {
        line = before;
    }
    line
}

fn list_is_wrong(list: &[u8]) -> bool {
    let lines = lines(list);
    lines.len() > MAX_LIST_LINES || lines.iter().any(|line| !line.is_empty() && !is_name(line))
}

/// Whether bytes are a name: 1 to 16, a letter, then letters or digits.
pub fn is_name(bytes: &[u8]) -> bool {
    bytes.len() <= MAX_NAME_BYTES
        && bytes.first().is_some_and(u8::is_ascii_lowercase)
        && bytes.iter().all(|byte| byte.is_ascii_lowercase() || byte.is_ascii_digit())
}

/// The part of the site's list, else the part of the built-in list, else `s` and the number.
fn shown_name(site: &[u8], built_in: &[u8], symbol: usize) -> Vec<u8> {
    line_of(site, symbol)
        .or(line_of(built_in, symbol))
        .map_or_else(|| format!("s{symbol}").into_bytes(), <[u8]>::to_vec)
}

/// A symbol's line, where there is one that is not empty.
fn line_of(list: &[u8], symbol: usize) -> Option<&[u8]> {
    lines(list).get(symbol).copied().filter(|line| !line.is_empty())
}
