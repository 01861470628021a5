//! The four moves between forms (18, 8, 10 and 53): a set decoded, and written with states or rules of another width.

use super::set::{self, Set};

/// Bytes of a state and of a rule.
type Widths = (usize, usize);

const NARROW: Widths = (2, 12);
const WIDE: Widths = (3, 12);
const ISOLATING: Widths = (3, 14);

/// The bytes of a narrow set in the wide form for a space of so many, or the number of a refusal.
pub fn widen_states(bytes: &[u8], space: usize) -> Result<Vec<u8>, u8> {
    written(taken(bytes, NARROW)?, WIDE, space)
}

/// The same for a wide set in the narrow form.
pub fn narrow_states(bytes: &[u8], space: usize) -> Result<Vec<u8>, u8> {
    let set = taken(bytes, WIDE)?;
    if set.tags > 8 {
        return Err(8);
    }
    written(set, NARROW, space)
}

/// The same for a wide set with rules of 14 bytes.
pub fn widen_rules(bytes: &[u8], space: usize) -> Result<Vec<u8>, u8> {
    written(taken(bytes, WIDE)?, ISOLATING, space)
}

/// The same for a set with rules of 14 bytes in the wide form.
pub fn narrow_rules(bytes: &[u8], space: usize) -> Result<Vec<u8>, u8> {
    let set = taken(bytes, ISOLATING)?;
    if set.rules.iter().any(|rule| rule.forgets != 0) {
        return Err(10);
    }
    written(set, WIDE, space)
}

/// The set in some bytes, where its widths are those that a move starts from; no rules are of any width.
fn taken(bytes: &[u8], (state_bytes, rule_bytes): Widths) -> Result<Set, u8> {
    let set = set::read(bytes)?;
    if set.state_bytes == state_bytes && (set.rule_bytes == rule_bytes || set.rules.is_empty()) {
        Ok(set)
    } else {
        Err(18)
    }
}

fn written(set: Set, (state_bytes, rule_bytes): Widths, space: usize) -> Result<Vec<u8>, u8> {
    Set { state_bytes, rule_bytes, ..set }.write(space)
}
