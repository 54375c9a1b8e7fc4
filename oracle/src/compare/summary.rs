//! What was compared, counted.

use super::words;
use crate::answer::code;
use crate::record::{Operation, Record};
use std::fmt;

/// How a record was compared.
#[derive(Clone, Copy, Debug, PartialEq, Eq)]
pub enum Way {
    /// With the Rust's own answer and state.
    Exactly,
    /// With the walk by ascending key, the Rust's being one of another order.
    UpToKeyOrder,
    /// With document 01's code, the Rust not being asked.
    Mark,
}

/// The operations, and one row more for numbers that are none.
const ROWS: usize = Operation::ALL.len() + 1;

#[derive(Clone, Debug, Default, PartialEq, Eq)]
pub struct Summary {
    pub exactly: u64,
    pub up_to_key_order: u64,
    pub marks: u64,
    /// Not compared: the pools may have been different.
    pub passed_over: u64,
    /// The trace ended with a short record, answered `bad`.
    pub last_is_short: bool,
    /// Agreed answers by operation and code.
    pub answers: [[u64; code::COUNT]; ROWS],
}

impl Summary {
    /// Whole records.
    pub fn records(&self) -> u64 {
        self.exactly + self.up_to_key_order + self.marks + self.passed_over
    }

    pub fn count(&mut self, way: Way, record: &Record, code: u8) {
        match way {
            Way::Exactly => self.exactly += 1,
            Way::UpToKeyOrder => self.up_to_key_order += 1,
            Way::Mark => self.marks += 1,
        }
        let row = usize::from(record.operation).min(ROWS - 1);
        self.answers[row][usize::from(code)] += 1;
    }
}

impl fmt::Display for Summary {
    fn fmt(&self, text: &mut fmt::Formatter) -> fmt::Result {
        let short = if self.last_is_short {
            " and a short one"
        } else {
            ""
        };
        writeln!(text, "{:>12} records{short}", self.records())?;
        writeln!(text, "{:>12} compared exactly", self.exactly)?;
        writeln!(
            text,
            "{:>12} compared up to key order",
            self.up_to_key_order
        )?;
        writeln!(text, "{:>12} compared with a mark's code", self.marks)?;
        writeln!(text, "{:>12} passed over", self.passed_over)?;
        writeln!(text)?;
        writeln!(text, "| operation | agreed answers, code: times |")?;
        writeln!(text, "|---|---|")?;
        for (row, codes) in self.answers.iter().enumerate() {
            let name = match Operation::from_number(row as u8) {
                Some(operation) => words::of_operation(operation),
                None => "none of these",
            };
            let given = codes.iter().enumerate().filter(|&(_, &times)| times > 0);
            let given: Vec<_> = given
                .map(|(code, times)| format!("{code}: {times}"))
                .collect();
            writeln!(text, "| {name} | {} |", given.join(", "))?;
        }
        Ok(())
    }
}
