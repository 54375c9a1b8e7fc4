//! All short sequences of calls over a small alphabet, each after a creation.
//!
//! The alphabet has every operation and, over the pages 1 to 5, the states that
//! the rules tell apart. A sequence with an unwanted record is left out, and so
//! is every other sequence with the same beginning.

use crate::answer::Mark;
use crate::driver::{Driver, WalkOrder};
use crate::record::{flag, Operation, Record};

/// Longer sequences than this are too many to ever be written.
pub const MAX_LENGTH: u64 = 8;

pub struct Plan {
    /// Calls after the creation.
    pub length: u64,
    /// The capacity created.
    pub capacity: u64,
    /// Leave out marks, and answers that depend on the Rust's map order.
    pub exact: bool,
}

/// Calls the visitor with each wanted sequence, the creation first, until it
/// answers an error.
pub fn for_each_sequence<E>(
    plan: &Plan,
    mut visit: impl FnMut(&[Record]) -> Result<(), E>,
) -> Result<(), E> {
    let letters = alphabet();
    let length = plan.length as usize;
    let creation = Record {
        number: plan.capacity,
        ..Record::new(Operation::Create)
    };
    // The sequence as a number with one digit for each call, the last one
    // counting fastest.
    let mut digits = vec![0; length];
    let mut sequence = vec![creation; length + 1];
    loop {
        for (place, &digit) in digits.iter().enumerate() {
            sequence[place + 1] = letters[digit];
        }
        let advance_at = match first_unwanted(&sequence, plan.exact) {
            Some(place) => place,
            None => {
                visit(&sequence)?;
                length
            }
        };
        if !count_on(&mut digits, advance_at, letters.len()) {
            return Ok(());
        }
    }
}

/// Counts on by one at the given place, numbered from 1. The digits behind it are
/// 0: a beginning is first met with the first letter at each place behind it.
/// Answers false when there is no number left.
fn count_on(digits: &mut [usize], place: usize, base: usize) -> bool {
    for digit in digits[..place].iter_mut().rev() {
        *digit += 1;
        if *digit < base {
            return true;
        }
        *digit = 0;
    }
    false
}

/// The place of the first record that isn't wanted. It is never the creation's.
fn first_unwanted(sequence: &[Record], exact: bool) -> Option<usize> {
    let mut driver = Driver::new(WalkOrder::ByKey);
    sequence.iter().position(|record| {
        let wanted = match driver.mark(record) {
            None => !exact || driver.is_exact(record),
            Some(mark) => !exact && mark != Mark::OtherRecord,
        };
        if wanted {
            driver.apply(record);
        }
        !wanted
    })
}

/// The calls. Pages 1, 2 and 3 are clean, 3 is tagged with frame 5, 4 is dirty
/// and 5 is held by the caller. A page's handle is its key times 100; the other
/// handles of page 2 make it another page. Releases take a lookup's holder of page 2
/// and the one that page 5 came with.
pub fn alphabet() -> Vec<Record> {
    use Operation::*;
    let page = |operation, key: u32, flags| Record {
        key,
        handle: key * 100,
        flags,
        ..Record::new(operation)
    };
    let number = |operation, number| Record {
        number,
        ..Record::new(operation)
    };
    let option = |operation, option| Record {
        option,
        ..Record::new(operation)
    };
    let loaded = flag::LOADED;
    vec![
        page(Insert, 1, loaded),
        page(Insert, 2, loaded),
        Record {
            handle: 201,
            ..page(Insert, 2, loaded)
        },
        Record {
            number: 5,
            ..page(Insert, 3, loaded | flag::WAL_TAG)
        },
        page(ForceInsert, 4, loaded | flag::DIRTY),
        Record {
            holders: 1,
            ..page(ForceInsert, 5, loaded)
        },
        Record {
            handle: 202,
            ..page(ForceUpsert, 2, loaded | flag::DIRTY)
        },
        page(Get, 2, 0),
        Record {
            option: 1,
            ..page(Peek, 3, 0)
        },
        page(Delete, 2, 0),
        page(Delete, 4, 0),
        number(Resize, 1),
        number(Resize, 3),
        number(Truncate, 2),
        number(RemoveFrames, 4),
        option(Clear, 0),
        option(Clear, 1),
        page(NotifyDirty, 2, 0),
        page(NotifySpilled, 4, 0),
        page(WriteRecord, 2, 0),
        Record {
            number: 5,
            ..page(WriteRecord, 3, loaded | flag::LOCKED | flag::WAL_TAG)
        },
        Record {
            pins: 1,
            number: 5,
            ..page(WriteRecord, 3, loaded | flag::WAL_TAG)
        },
        page(WriteRecord, 4, loaded | flag::DIRTY | flag::SPILLED),
        number(CheckSpill, 0),
        number(CheckSpill, 1),
        Record::new(EvictOne),
        option(SetSpill, 0),
        page(Release, 2, 0),
        page(Release, 5, 0),
    ]
}
