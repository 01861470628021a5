//! A JSON text read up to a byte, and refusal 71 at that byte (RFC 8259, sections 2 and 3; document 02, Wish 1).

use crate::refusal::Refusal;

/// A text and the byte to be read next. What is read of it comes from the left, so that the first byte that nothing
/// legal can go on with is the one found first.
pub struct Cursor<'a> {
    pub text: &'a [u8],
    pub at: usize,
}

impl Cursor<'_> {
    pub fn peek(&self) -> Option<u8> {
        self.text.get(self.at).copied()
    }

    /// Refusal 71 at the byte to be read next, or at the end.
    pub fn no_continuation<T>(&self) -> Result<T, Refusal> {
        Err(Refusal::at(71, self.at))
    }

    /// Takes the next byte, which must be one that may come.
    pub fn take(&mut self, may_come: impl Fn(u8) -> bool) -> Result<u8, Refusal> {
        match self.peek() {
            Some(byte) if may_come(byte) => {
                self.at += 1;
                Ok(byte)
            }
            _ => self.no_continuation(),
        }
    }

    /// Takes the next byte if it is this one.
    pub fn take_if(&mut self, wanted: u8) -> bool {
        self.take(|byte| byte == wanted).is_ok()
    }

    /// Takes bytes that must come next.
    pub fn word(&mut self, word: &[u8]) -> Result<(), Refusal> {
        word.iter().try_for_each(|&wanted| self.take(|byte| byte == wanted).map(|_| ()))
    }

    /// Takes white space, if there is any.
    pub fn white_space(&mut self) {
        while self.peek().is_some_and(|byte| matches!(byte, 9 | 10 | 13 | 32)) {
            self.at += 1;
        }
    }

    /// Takes a byte that must come next, with white space on both sides; that before it also where another byte comes.
    pub fn mark(&mut self, wanted: u8) -> Result<(), Refusal> {
        self.white_space();
        self.word(&[wanted])?;
        self.white_space();
        Ok(())
    }

    pub fn end(&self) -> Result<(), Refusal> {
        match self.peek() {
            Some(_) => self.no_continuation(),
            None => Ok(()),
        }
    }
}
