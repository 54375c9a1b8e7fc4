//! The program's lines, one by one.

use super::report::Failure;
use crate::answer::{Answer, State};
use crate::replay::write_state;
use std::io::BufRead;

pub struct Lines<'a, R> {
    output: &'a mut R,
}

impl<'a, R: BufRead> Lines<'a, R> {
    pub fn new(output: &'a mut R) -> Self {
        Self { output }
    }

    /// Reads the next line with its end, or nothing if there is none.
    pub fn read(&mut self, line: &mut Vec<u8>) -> Result<(), Failure> {
        line.clear();
        self.output
            .read_until(b'\n', line)
            .map_err(Failure::ReadOutput)?;
        Ok(())
    }

    pub fn expect_end(&mut self) -> Result<(), Failure> {
        let mut line = Vec::new();
        self.read(&mut line)?;
        if line.is_empty() {
            Ok(())
        } else {
            Err(Failure::Surplus(text(&line)))
        }
    }
}

/// An answer line and a state line, each with its end. A line that isn't there
/// is empty.
#[derive(Default)]
pub struct Pair {
    pub answer: Vec<u8>,
    pub state: Vec<u8>,
}

impl Pair {
    pub fn set(&mut self, answer: &Answer, state: Option<&State>) {
        self.answer.clear();
        answer.write_line(&mut self.answer);
        self.answer.push(b'\n');
        self.set_state(state);
    }

    pub fn set_state(&mut self, state: Option<&State>) {
        self.state.clear();
        write_state(state, &mut self.state);
        self.state.push(b'\n');
    }

    /// Whether the first line looks like an answer.
    pub fn has_answer_line(&self) -> bool {
        self.answer.first().is_some_and(u8::is_ascii_digit)
    }

    /// Whether the second line looks like a state.
    pub fn has_state_line(&self) -> bool {
        self.state.starts_with(b"- ")
    }

    pub fn texts(&self) -> (String, String) {
        (text(&self.answer), text(&self.state))
    }
}

/// A line for a message.
pub fn text(line: &[u8]) -> String {
    match line.strip_suffix(b"\n") {
        Some(line) => String::from_utf8_lossy(line).into(),
        None if line.is_empty() => "(no line)".into(),
        None => format!("{} (cut off)", String::from_utf8_lossy(line)),
    }
}
