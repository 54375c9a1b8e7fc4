//! What is said when output and Rust don't agree.

use super::lines::Pair;
use std::fmt;
use std::io;

/// Why a comparison failed. Records are numbered from 1.
#[derive(Debug)]
pub enum Failure {
    EmptyTrace,
    ReadTrace(io::Error),
    ReadOutput(io::Error),
    Differs(Box<Difference>),
    /// A record that is passed over has something else than its lines.
    NotALine {
        number: u64,
        call: String,
        written: (String, String),
    },
    /// The short last record isn't answered by `bad`.
    Short {
        number: u64,
        bytes: usize,
        written: String,
    },
    /// A line after the last record's.
    Surplus(String),
}

/// A record whose lines aren't the right ones.
#[derive(Debug)]
pub struct Difference {
    pub number: u64,
    /// The first thing that differs.
    pub what: &'static str,
    /// The record in words.
    pub call: String,
    pub before: String,
    pub rusts_answer: String,
    pub rusts_state: String,
    /// What the program had to write. It is the Rust's unless the Rust wasn't
    /// asked or its map's order matters.
    pub expected_answer: String,
    pub expected_state: String,
    pub written_answer: String,
    pub written_state: String,
}

impl fmt::Display for Failure {
    fn fmt(&self, message: &mut fmt::Formatter) -> fmt::Result {
        match self {
            Failure::EmptyTrace => write!(message, "the trace is empty: nothing was compared"),
            Failure::ReadTrace(error) => write!(message, "can't read the trace: {error}"),
            Failure::ReadOutput(error) => write!(message, "can't read the output: {error}"),
            Failure::Differs(difference) => difference.fmt(message),
            Failure::NotALine {
                number,
                call,
                written: (answer, state),
            } => write!(
                message,
                "record {number} has no answer and state\n  call     {call}\n  \
                 program  {answer}\n           {state}"
            ),
            Failure::Short {
                number,
                bytes,
                written,
            } => write!(
                message,
                "record {number} is short, {bytes} bytes: the program has to write bad\n  \
                 program  {written}"
            ),
            Failure::Surplus(line) => {
                write!(
                    message,
                    "a line after the last record's:\n  program  {line}"
                )
            }
        }
    }
}

impl fmt::Display for Difference {
    fn fmt(&self, message: &mut fmt::Formatter) -> fmt::Result {
        writeln!(message, "record {} differs: {}", self.number, self.what)?;
        writeln!(message, "  call     {}", self.call)?;
        writeln!(message, "  before   {}", self.before)?;
        writeln!(message, "  Rust     {}", self.rusts_answer)?;
        writeln!(message, "           {}", self.rusts_state)?;
        let (answer, state) = (&self.expected_answer, &self.expected_state);
        if (answer, state) != (&self.rusts_answer, &self.rusts_state) {
            writeln!(message, "  due      {answer}")?;
            writeln!(message, "           {state}")?;
        }
        writeln!(message, "  program  {}", self.written_answer)?;
        write!(message, "           {}", self.written_state)
    }
}

const ANSWER: [&str; 6] = ["code", "value", "passed", "held", "hand", "list length"];
const STATE: [&str; 5] = [
    "state",
    "state: capacity",
    "state: spill switch",
    "state: estimate",
    "state: held",
];
/// The parts of a page, with a colon between them. Another key is another ring.
const ENTRY: [&str; 4] = [
    "state: ring",
    "state: handle",
    "state: uses",
    "state: holders",
];

/// Names the first thing in which lines differ.
pub fn first_difference(expected: &Pair, written: &Pair) -> &'static str {
    if expected.answer != written.answer {
        if !written.has_answer_line() {
            return "no answer line";
        }
        return match differing_word(&expected.answer, &written.answer) {
            Some((at, _, _)) => ANSWER.get(at).copied().unwrap_or("list"),
            None => "the line's end",
        };
    }
    if !written.has_state_line() {
        return "no state line";
    }
    match differing_word(&expected.state, &written.state) {
        Some((at, due, word)) => STATE
            .get(at)
            .copied()
            .unwrap_or_else(|| differing_entry(due, word)),
        None => "the line's end",
    }
}

/// The place of the first differing word, and both words there.
fn differing_word<'a>(one: &'a [u8], other: &'a [u8]) -> Option<(usize, &'a [u8], &'a [u8])> {
    let end = |byte: &u8| *byte == b'\n';
    let words = |line: &'a [u8]| {
        let line = line.split(end).next().unwrap_or(&[]);
        line.split(|&byte| byte == b' ').map(Some)
    };
    let longest = one.len().max(other.len());
    let padded = |line| words(line).chain(std::iter::repeat(None)).take(longest);
    padded(one)
        .zip(padded(other))
        .enumerate()
        .find(|(_, (due, word))| due != word)
        .map(|(at, (due, word))| (at, due.unwrap_or(&[]), word.unwrap_or(&[])))
}

/// In which part two entries of the ring differ.
fn differing_entry(due: &[u8], word: &[u8]) -> &'static str {
    let parts = |entry: &[u8]| -> Vec<Vec<u8>> {
        entry
            .split(|&byte| byte == b':')
            .map(<[u8]>::to_vec)
            .collect()
    };
    let (due, word) = (parts(due), parts(word));
    let mut names = ENTRY.iter().zip(due.iter().zip(&word));
    match names.find(|(_, (due, word))| due != word) {
        Some((name, _)) if due.len() == word.len() => name,
        _ => ENTRY[0],
    }
}
