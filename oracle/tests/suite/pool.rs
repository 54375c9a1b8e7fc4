//! A pool under test: calls by name, answers as the replay program's lines.

use oracle::answer::State;
use oracle::driver::{Driver, WalkOrder};
use oracle::record::{flag, Operation, Record};

/// A call with a number: a capacity, a limit or the most to select.
pub fn numbered(operation: Operation, number: u64) -> Record {
    Record {
        number,
        ..Record::new(operation)
    }
}

/// A call with an option.
pub fn optional(operation: Operation, option: u8) -> Record {
    Record {
        option,
        ..Record::new(operation)
    }
}

/// A call on a key.
pub fn keyed(operation: Operation, key: u32) -> Record {
    Record {
        key,
        ..Record::new(operation)
    }
}

/// A call that brings a page: loaded, clean, free to go, its handle ten times
/// its key.
pub fn paged(operation: Operation, key: u32) -> Record {
    flagged(operation, key, flag::LOADED)
}

/// As `paged`, with these flags.
pub fn flagged(operation: Operation, key: u32, flags: u8) -> Record {
    Record {
        handle: key.wrapping_mul(10),
        flags,
        ..keyed(operation, key)
    }
}

pub fn create(capacity: u64) -> Record {
    numbered(Operation::Create, capacity)
}

pub fn insert(key: u32) -> Record {
    paged(Operation::Insert, key)
}

pub fn lookup(key: u32) -> Record {
    keyed(Operation::Get, key)
}

pub fn release(key: u32) -> Record {
    keyed(Operation::Release, key)
}

pub fn evict_one() -> Record {
    Record::new(Operation::EvictOne)
}

pub struct Pool {
    driver: Driver,
}

impl Pool {
    pub fn before_creation() -> Self {
        Self {
            driver: Driver::new(WalkOrder::ByKey),
        }
    }

    pub fn created(capacity: u64) -> Self {
        let mut pool = Self::before_creation();
        pool.gives(create(capacity), "0 0 0 0 - 0");
        pool
    }

    /// Makes the call and answers its line.
    pub fn call(&mut self, record: Record) -> String {
        self.driver.apply(&record).to_string()
    }

    /// Makes the call, whose line has to be this one.
    #[track_caller]
    pub fn gives(&mut self, record: Record, line: &str) {
        let answer = self.call(record);
        assert_eq!(answer, line, "for {record:?}");
    }

    /// Makes the call, which has to be done (code 0).
    #[track_caller]
    pub fn done(&mut self, record: Record) {
        let answer = self.call(record);
        assert!(answer.starts_with("0 "), "{answer} for {record:?}");
    }

    /// Raises a present page's use count without a holder: an insertion answered 9.
    #[track_caller]
    pub fn touch(&mut self, key: u32) {
        let answer = self.call(insert(key));
        assert!(answer.starts_with("9 "), "{answer} for {key}");
    }

    pub fn state(&self) -> State {
        self.driver.state().expect("the pool was created")
    }

    pub fn estimate(&self) -> usize {
        self.state().estimate
    }

    /// Keys and use counts in sweep order from the hand.
    pub fn ring(&self) -> Vec<(u32, u8)> {
        let ring = self.state().ring;
        ring.iter().map(|entry| (entry.key, entry.uses)).collect()
    }

    /// Keys and holders in sweep order from the hand.
    pub fn holders(&self) -> Vec<(u32, usize)> {
        let ring = self.state().ring;
        ring.iter()
            .map(|entry| (entry.key, entry.holders))
            .collect()
    }

    /// Makes the call, whose line has to be this one and which has to leave the
    /// state as it is.
    #[track_caller]
    pub fn gives_and_keeps_state(&mut self, record: Record, line: &str) {
        let before = self.driver.state();
        self.gives(record, line);
        assert_eq!(self.driver.state(), before, "for {record:?}");
    }
}
