//! JSON numbers (RFC 8259, section 6): how they are written, and the count or rate that they are (document 02, Wishes
//! 1 and 6).

use crate::document::{with_one_zero, Scalar};
use crate::json_cursor::Cursor;
use crate::limits::MAX_RATE_DIGITS;
use crate::refusal::Refusal;

/// A number as it is written.
pub struct Number {
    has_sign: bool,
    /// All digits, those behind the point too, as text.
    digits: String,
    /// How many of them stand behind the point.
    behind_point: usize,
    has_exponent: bool,
}

impl Cursor<'_> {
    /// The longest number from here: it ends at the first byte that cannot go on with it. Only a digit behind a leading 0
    /// does not end it, and is refused.
    pub fn number(&mut self) -> Result<Number, Refusal> {
        let has_sign = self.take_if(b'-');
        let mut digits = String::new();
        if self.take_if(b'0') {
            digits.push('0');
            if self.peek().is_some_and(|byte| byte.is_ascii_digit()) {
                return self.no_continuation();
            }
        } else {
            digits.push_str(&self.some_digits()?);
        }
        let before_point = digits.len();
        if self.take_if(b'.') {
            digits.push_str(&self.some_digits()?);
        }
        let has_exponent = self.take_if(b'e') || self.take_if(b'E');
        if has_exponent {
            let _ = self.take_if(b'+') || self.take_if(b'-');
            self.some_digits()?;
        }
        let behind_point = digits.len() - before_point;
        Ok(Number { has_sign, digits, behind_point, has_exponent })
    }

    /// One digit or more.
    fn some_digits(&mut self) -> Result<String, Refusal> {
        let mut digits = String::new();
        digits.push(char::from(self.take(|byte| byte.is_ascii_digit())?));
        while let Ok(digit) = self.take(|byte| byte.is_ascii_digit()) {
            digits.push(char::from(digit));
        }
        Ok(digits)
    }
}

impl Number {
    /// The count or the rate, or nothing where the number has neither form (73).
    pub fn scalar(&self) -> Option<Scalar> {
        self.count().map(Scalar::Count).or(self.rate().map(Scalar::Rate))
    }

    /// A whole number below 2^64 without sign, fraction or exponent.
    fn count(&self) -> Option<u64> {
        if self.has_sign || self.behind_point > 0 || self.has_exponent {
            return None;
        }
        self.digits.parse().ok()
    }

    /// The bits of the digits as a whole number, divided once by the power of ten, with the sign put on afterwards.
    /// Both have at most 15 digits and are floats without loss, so that the division alone rounds.
    fn rate(&self) -> Option<u64> {
        if self.has_exponent || self.digits.len() > MAX_RATE_DIGITS {
            return None;
        }
        let whole: u64 = self.digits.parse().expect("at most 15 digits");
        let power = 10_u64.pow(self.behind_point as u32);
        let unsigned = whole as f64 / power as f64;
        let rate = if self.has_sign { -unsigned } else { unsigned };
        Some(with_one_zero(rate.to_bits()))
    }
}
