//! JSON text cut into tokens, for the second way to its tree: numbers by an automaton, escapes by classes of bytes, and
//! UTF-8 and surrogate pairs by the standard library.

use std::str;

/// What a token is.
#[derive(Clone, Debug, PartialEq, Eq)]
pub enum Kind {
    /// One of `{}[],:`.
    Mark(u8),
    /// `null`, `true` or `false`.
    Word(&'static str),
    /// A number as it is written.
    Number(String),
    /// A string, decoded.
    Text(String),
    /// A byte that no token starts with.
    Unknown,
}

/// A token from its first byte on. One that is not whole has a fault: the byte with which it cannot go on.
#[derive(Clone, Debug, PartialEq, Eq)]
pub struct Token {
    pub start: usize,
    pub kind: Kind,
    pub fault: Option<usize>,
}

/// The tokens of a text up to the first that is not whole, or all of them.
pub fn tokens(text: &[u8]) -> Vec<Token> {
    let lexer = Lexer::new(text);
    let mut tokens = Vec::new();
    let mut at = 0;
    while at < text.len() {
        if matches!(text[at], b' ' | b'\t' | b'\n' | b'\r') {
            at += 1;
            continue;
        }
        let (kind, end) = lexer.token(at);
        tokens.push(Token { start: at, kind, fault: end.err() });
        match end {
            Ok(behind) => at = behind,
            Err(_) => break,
        }
    }
    tokens
}

/// Where a token ends, or the byte with which it cannot go on.
type End = Result<usize, usize>;

struct Lexer<'a> {
    text: &'a [u8],
    /// The front of the text that is UTF-8.
    sound: &'a str,
    /// The first byte with which UTF-8 cannot go on, or the end.
    fault: usize,
}

const HEX: &[u8] = b"0123456789abcdefABCDEF";

/// Escapes of four hex digits that stand for a character: behind D only 0 to 7 can come.
const UNIT: [&[u8]; 6] = [b"\\", b"u", b"0123456789abcefABCEF", HEX, HEX, HEX];
const UNIT_BEHIND_D: [&[u8]; 6] = [b"\\", b"u", b"dD", b"01234567", HEX, HEX];
/// Two escapes that stand for one character: a high half and a low half.
const PAIR: [&[u8]; 12] =
    [b"\\", b"u", b"dD", b"89abAB", HEX, HEX, b"\\", b"u", b"dD", b"cdefCDEF", HEX, HEX];
/// The other escapes.
const SHORT: [&[u8]; 2] = [b"\\", b"\"\\/bfnrt"];

impl<'a> Lexer<'a> {
    fn new(text: &'a [u8]) -> Lexer<'a> {
        let (length, fault) = match str::from_utf8(text) {
            Ok(_) => (text.len(), text.len()),
            Err(error) => {
                let start = error.valid_up_to();
                // A byte that starts a character is at fault with the byte behind it, another one by itself.
                let starts_a_character = (0xc2..=0xf4).contains(&text[start]);
                let behind = error.error_len().unwrap_or(text.len() - start);
                (start, if starts_a_character { start + behind } else { start })
            }
        };
        Lexer { text, sound: str::from_utf8(&text[..length]).expect("this far it is UTF-8"), fault }
    }

    fn token(&self, start: usize) -> (Kind, End) {
        match self.text[start] {
            mark @ (b'{' | b'}' | b'[' | b']' | b',' | b':') => (Kind::Mark(mark), Ok(start + 1)),
            b't' => self.word(start, "true"),
            b'f' => self.word(start, "false"),
            b'n' => self.word(start, "null"),
            b'-' | b'0'..=b'9' => self.number(start),
            b'"' => self.string(start),
            _ => (Kind::Unknown, Err(start)),
        }
    }

    fn word(&self, start: usize, word: &'static str) -> (Kind, End) {
        let classes: Vec<&[u8]> = word.as_bytes().chunks(1).collect();
        (Kind::Word(word), self.matches(start, &classes))
    }

    /// Bytes of these classes one after the other, or the first place where another byte or the end is.
    fn matches(&self, start: usize, classes: &[&[u8]]) -> End {
        for (at, class) in (start..).zip(classes) {
            if !self.text.get(at).is_some_and(|byte| class.contains(byte)) {
                return Err(at);
            }
        }
        Ok(start + classes.len())
    }

    fn number(&self, start: usize) -> (Kind, End) {
        let mut state = NumberState::Start;
        let mut at = start;
        while let Some(next) = self.text.get(at).and_then(|&byte| state.after(byte)) {
            state = next;
            at += 1;
        }
        let is_whole = match state {
            NumberState::Zero => !self.text.get(at).is_some_and(u8::is_ascii_digit),
            NumberState::Whole | NumberState::Fraction | NumberState::Exponent => true,
            _ => false,
        };
        let spelled = String::from_utf8_lossy(&self.text[start..at]).into_owned();
        (Kind::Number(spelled), if is_whole { Ok(at) } else { Err(at) })
    }

    fn string(&self, start: usize) -> (Kind, End) {
        let mut decoded = String::new();
        let mut at = start + 1;
        loop {
            match self.sound.get(at..).and_then(|rest| rest.chars().next()) {
                Some('"') => return (Kind::Text(decoded), Ok(at + 1)),
                Some('\\') => match self.escape(at) {
                    Ok((character, behind)) => {
                        decoded.push(character);
                        at = behind;
                    }
                    Err(fault) => return (Kind::Text(decoded), Err(fault)),
                },
                Some(character) if character >= ' ' => {
                    decoded.push(character);
                    at += character.len_utf8();
                }
                Some(_) => return (Kind::Text(decoded), Err(at)),
                None => return (Kind::Text(decoded), Err(self.fault)),
            }
        }
    }

    /// The character of an escape and the place behind it: of all forms the one that reaches furthest counts.
    fn escape(&self, start: usize) -> Result<(char, usize), usize> {
        let forms: [&[&[u8]]; 4] = [&SHORT, &UNIT, &UNIT_BEHIND_D, &PAIR];
        let ends = forms.map(|classes| self.matches(start, classes));
        let Some(behind) = ends.iter().find_map(|end| end.ok()) else {
            return Err(ends.iter().filter_map(|end| end.err()).max().expect("no form fits"));
        };
        let escape = &self.sound[start..behind];
        Ok((if escape.len() == 2 { short_escape(escape) } else { long_escape(escape) }, behind))
    }
}

/// The character of a backslash and one byte.
fn short_escape(escape: &str) -> char {
    match &escape[1..] {
        "b" => '\u{8}',
        "f" => '\u{c}',
        "n" => '\n',
        "r" => '\r',
        "t" => '\t',
        itself => itself.chars().next().expect("one byte"),
    }
}

/// The character of one or two escapes of four hex digits each.
fn long_escape(escape: &str) -> char {
    let digits = (0..escape.len()).step_by(6).map(|at| &escape[at + 2..at + 6]);
    let units = digits.map(|digits| u16::from_str_radix(digits, 16).expect("hex digits"));
    char::decode_utf16(units).next().expect("one unit at least").expect("a character or a pair")
}

/// How far a number has come (RFC 8259, section 6).
#[derive(Clone, Copy)]
enum NumberState {
    Start,
    Minus,
    Zero,
    Whole,
    Point,
    Fraction,
    ExponentMark,
    ExponentSign,
    Exponent,
}

impl NumberState {
    /// The state behind a byte, where the number can go on with it.
    fn after(self, byte: u8) -> Option<NumberState> {
        use NumberState::*;
        Some(match (self, byte) {
            (Start, b'-') => Minus,
            (Start | Minus, b'0') => Zero,
            (Start | Minus, b'1'..=b'9') | (Whole, b'0'..=b'9') => Whole,
            (Zero | Whole, b'.') => Point,
            (Point | Fraction, b'0'..=b'9') => Fraction,
            (Zero | Whole | Fraction, b'e' | b'E') => ExponentMark,
            (ExponentMark, b'+' | b'-') => ExponentSign,
            (ExponentMark | ExponentSign | Exponent, b'0'..=b'9') => Exponent,
            _ => return None,
        })
    }
}
