//! JSON strings (RFC 8259, section 7; Unicode, well-formed UTF-8 and surrogate pairs): what they decode to.

use crate::json_cursor::Cursor;
use crate::refusal::Refusal;

/// The first and the last of some bytes that may stand in one place.
type Bytes = (u8, u8);

/// What most bytes behind the first one of a character may be.
const TAIL: Bytes = (0x80, 0xbf);

/// The characters that a string may hold as they are: what the first byte may be, and then each byte behind it
/// (Unicode, table of well-formed UTF-8 byte sequences). Quote and backslash are told apart before.
const CHARACTERS: [(Bytes, &[Bytes]); 9] = [
    ((0x20, 0x7f), &[]),
    ((0xc2, 0xdf), &[TAIL]),
    ((0xe0, 0xe0), &[(0xa0, 0xbf), TAIL]),
    ((0xe1, 0xec), &[TAIL, TAIL]),
    ((0xed, 0xed), &[(0x80, 0x9f), TAIL]),
    ((0xee, 0xef), &[TAIL, TAIL]),
    ((0xf0, 0xf0), &[(0x90, 0xbf), TAIL, TAIL]),
    ((0xf1, 0xf3), &[TAIL, TAIL, TAIL]),
    ((0xf4, 0xf4), &[(0x80, 0x8f), TAIL, TAIL]),
];

fn is_among((first, last): Bytes, byte: u8) -> bool {
    (first..=last).contains(&byte)
}

impl Cursor<'_> {
    /// A string with its two quotes, decoded.
    pub fn string(&mut self) -> Result<Vec<u8>, Refusal> {
        self.word(b"\"")?;
        let mut decoded = Vec::new();
        while !self.take_if(b'"') {
            if self.take_if(b'\\') {
                let character = self.behind_backslash()?;
                decoded.extend(character.to_string().as_bytes());
            } else {
                decoded.extend(self.character()?);
            }
        }
        Ok(decoded)
    }

    /// The bytes of one character that stands for itself.
    fn character(&mut self) -> Result<&[u8], Refusal> {
        let start = self.at;
        let row = |byte: u8| CHARACTERS.iter().find(|(first, _)| is_among(*first, byte));
        let Some((_, further)) = self.peek().and_then(row) else {
            return self.no_continuation();
        };
        self.at += 1;
        for &bytes in *further {
            self.take(|byte| is_among(bytes, byte))?;
        }
        Ok(&self.text[start..self.at])
    }

    /// The character of an escape, whose backslash has been taken.
    fn behind_backslash(&mut self) -> Result<char, Refusal> {
        let mark = self.take(|byte| b"\"\\/bfnrtu".contains(&byte))?;
        match mark {
            b'b' => Ok('\u{8}'),
            b'f' => Ok('\u{c}'),
            b'n' => Ok('\n'),
            b'r' => Ok('\r'),
            b't' => Ok('\t'),
            b'u' => self.behind_u(),
            itself => Ok(char::from(itself)),
        }
    }

    /// The character of four hex digits, or of eight where the first four are a high half. After D, the digits C to F
    /// would make a low half with no high half before it, so that they cannot come.
    fn behind_u(&mut self) -> Result<char, Refusal> {
        let first = self.hex_digit(|_| true)?;
        let second = self.hex_digit(|digit| first != 0xd || digit < 0xc)?;
        let unit = self.two_more_digits(16 * first + second)?;
        if first == 0xd && second >= 8 {
            return self.behind_high_half(unit);
        }
        Ok(char::from_u32(unit).expect("no half of a pair"))
    }

    /// The character of a pair: the low half must stand right behind, escaped as well.
    fn behind_high_half(&mut self, high: u32) -> Result<char, Refusal> {
        self.word(b"\\u")?;
        let first = self.hex_digit(|digit| digit == 0xd)?;
        let second = self.hex_digit(|digit| digit >= 0xc)?;
        let low = self.two_more_digits(16 * first + second)?;
        let code = 0x1_0000 + 0x400 * (high - 0xd800) + (low - 0xdc00);
        Ok(char::from_u32(code).expect("pairs reach no further than the last character"))
    }

    fn two_more_digits(&mut self, before: u32) -> Result<u32, Refusal> {
        let third = self.hex_digit(|_| true)?;
        let fourth = self.hex_digit(|_| true)?;
        Ok(256 * before + 16 * third + fourth)
    }

    /// The value of a hex digit, of either case, that may come here.
    fn hex_digit(&mut self, may_come: impl Fn(u32) -> bool) -> Result<u32, Refusal> {
        let value = |byte: u8| char::from(byte).to_digit(16);
        let byte = self.take(|byte| value(byte).is_some_and(&may_come))?;
        Ok(value(byte).expect("a hex digit"))
    }
}
