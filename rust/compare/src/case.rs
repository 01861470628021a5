//! One comparison: a call, its two answers, and the input to print should something differ.

use std::fmt::{self, Write};

use crate::answer::Answer;
use crate::lent::{Element, Lent};

/// An input of a function, as it is printed.
pub enum Input<'a> {
    /// A stored set, in hex.
    Set(&'a [u8]),
    /// Text or a name list, readable where it can be.
    Text(&'a [u8]),
    /// Rows or steps, a line for each, of so many cells.
    Cells(&'a [u16], usize),
    /// A space, by its length in elements.
    Space(usize),
}

/// What the library must answer.
pub enum Expected {
    /// This and nothing else.
    Exactly(Answer),
    /// A yes with a run of the library's choice, of at least one step and at most so many.
    RunOfAtMost(usize),
}

/// A function called on an input, with the answers of library and reference.
pub struct Case<'a> {
    pub function: &'static str,
    pub inputs: &'a [(&'static str, Input<'a>)],
    pub library: Answer,
    pub expected: Expected,
}

impl Case<'_> {
    /// Stops with everything printed unless the library answers as it must.
    pub fn same_answer(&self) {
        let agrees = match self.expected {
            Expected::Exactly(answer) => self.library == answer,
            Expected::RunOfAtMost(most) => {
                matches!(self.library, Answer::Value(steps) if (1..=most as u64).contains(&steps))
            }
        };
        if !agrees {
            self.fail("the answers differ");
        }
    }

    /// Stops with everything printed unless a lent space holds what it must, guards included.
    pub fn same_space<T: Element>(&self, name: &str, lent: &Lent<T>, expected: &[T]) {
        if !lent.guards_are_untouched() {
            self.fail(&format!("the library wrote outside the space `{name}`"));
        }
        let found = lent.contents();
        if let Some(at) = (0..expected.len()).find(|&at| found[at] != expected[at]) {
            let (found, expected) = (found[at], expected[at]);
            self.fail(&format!(
                "element {at} of the space `{name}`: the library leaves {found:?}, it must be {expected:?}"
            ));
        }
    }

    /// Stops with the input and both answers printed.
    pub fn fail(&self, difference: &str) -> ! {
        let mut message = format!("{}: {difference}\n", self.function);
        for (name, input) in self.inputs {
            let _ = writeln!(message, "{name}: {}", shown(input));
        }
        panic!("{message}library: {}\nreference: {}", self.library, self.expected);
    }
}

impl fmt::Display for Expected {
    fn fmt(&self, out: &mut fmt::Formatter) -> fmt::Result {
        match self {
            Expected::Exactly(answer) => answer.fmt(out),
            Expected::RunOfAtMost(most) => write!(out, "yes, with a run of at most {most} steps"),
        }
    }
}

fn shown(input: &Input) -> String {
    match input {
        Input::Set(bytes) => format!("{} bytes: {}", bytes.len(), hex(bytes)),
        Input::Text(bytes) => format!("{} bytes: {}", bytes.len(), bytes.escape_ascii()),
        Input::Cells(cells, width) => {
            let lines: Vec<String> = cells.chunks(*width).map(|row| format!("\n  {row:?}")).collect();
            format!("{} cells:{}", cells.len(), lines.concat())
        }
        Input::Space(length) => format!("space of {length}"),
    }
}

fn hex(bytes: &[u8]) -> String {
    bytes.iter().map(|byte| format!("{byte:02x}")).collect()
}
