//! Compares the replay program's output with what the Rust does, record by
//! record and state by state.
//!
//! Each line that the program writes has one right form, byte for byte: the
//! Rust's own answer and state; document 01's code where the Rust isn't asked
//! (`marks`); the outcome of the walk by ascending key where the Rust's depends
//! on the order of its map (`walk`). In the last case the Rust's own outcome has
//! to be the one of some order of the keys.

mod comparer;
mod history;
mod lines;
mod marks;
mod report;
mod summary;
pub mod walk;
mod words;

pub use report::{Difference, Failure};
pub use summary::Summary;

use crate::record::Record;
use crate::replay::read_record;
use comparer::Comparer;
use lines::Lines;
use std::io::BufRead;

/// What the program was asked to write for each record.
#[derive(Clone, Copy, Debug, PartialEq, Eq)]
pub enum Form {
    /// An answer and a state, as `replay --state` does.
    AnswersAndStates,
    /// An answer only.
    Answers,
}

/// Compares the whole output with the whole trace.
pub fn compare(
    trace: &mut impl BufRead,
    output: &mut impl BufRead,
    form: Form,
) -> Result<Summary, Failure> {
    let mut comparer = Comparer::new(form);
    let mut lines = Lines::new(output);
    let mut bytes = [0; Record::LENGTH];
    loop {
        match read_record(trace, &mut bytes).map_err(Failure::ReadTrace)? {
            Record::LENGTH => comparer.compare_record(&Record::from_bytes(&bytes), &mut lines)?,
            0 => break,
            short => {
                comparer.compare_short_record(short, &mut lines)?;
                break;
            }
        }
    }
    lines.expect_end()?;
    comparer.into_summary().ok_or(Failure::EmptyTrace)
}
