//! Brings the Rust to the pool that a walk by ascending key leaves.
//!
//! Once a walk was refused, the Rust's map decides which pages are gone, and its
//! pool may not be the program's. So a new cache is taken through the same calls
//! again, and deletes the pages that go by ascending key, one by one: the walk's
//! own steps in the other order, made by the Rust itself.

use crate::driver::{Driver, WalkOrder};
use crate::record::{Operation, Record};

/// The calls since the last creation that the driver made.
#[derive(Default)]
pub struct History {
    calls: Vec<Record>,
}

/// Longer histories aren't kept: their repetition would take too long.
const LONGEST: usize = 20_000;

impl History {
    pub fn add(&mut self, record: &Record) {
        if record.operation == Operation::Create.number() {
            self.calls.clear();
        }
        if self.calls.len() <= LONGEST {
            self.calls.push(*record);
        }
    }

    /// A driver that made the same calls, but for the last one, a walk: it
    /// deleted these keys instead. Nothing if the history is too long.
    pub fn with_deletions(&mut self, keys: &[u32]) -> Option<Driver> {
        if self.calls.len() > LONGEST {
            return None;
        }
        self.calls.pop();
        self.calls.extend(keys.iter().map(|&key| Record {
            key,
            ..Record::new(Operation::Delete)
        }));
        let mut driver = Driver::new(WalkOrder::ByKey);
        for call in &self.calls {
            driver.apply(call);
        }
        Some(driver)
    }
}
