//! The word that every function of the C interface answers: a value, or a refusal with its number and place.

/// Set in the word of a refusal.
const REFUSED: u64 = 1 << 63;
/// The largest place that fits in a refusal's word; larger ones are cut to it.
pub const LARGEST_PLACE: u64 = (1 << 55) - 1;

/// The value, or number and place of a refusal: `2^63 + place * 256 + number`, with place 0 where there is none.
///
/// ```
/// use cidhomba::word::parts;
///
/// assert_eq!(parts(99), Ok(99));
/// assert_eq!(parts((1 << 63) + 9 * 256 + 65), Err((65, 9)));
/// ```
pub fn parts(word: u64) -> Result<u64, (u8, u64)> {
    if word < REFUSED {
        return Ok(word);
    }
    let rest = word - REFUSED;
    Err(((rest % 256) as u8, rest / 256))
}

#[cfg(test)]
mod tests {
    use super::*;

    #[test]
    fn values_and_refusals_at_their_limits() {
        assert_eq!(parts(0), Ok(0));
        assert_eq!(parts((1 << 63) - 1), Ok((1 << 63) - 1));
        assert_eq!(parts((1 << 63) + 7), Err((7, 0)));
        assert_eq!(parts((1 << 63) + 768 * 256 + 64), Err((64, 768)));
        assert_eq!(parts(u64::MAX), Err((255, LARGEST_PLACE)));
    }
}
