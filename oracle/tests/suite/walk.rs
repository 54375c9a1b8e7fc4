//! Which outcomes of a walk some order of the keys gives.

use crate::pool::*;
use oracle::answer::{Answer, State};
use oracle::compare::walk::{After, Walk};
use oracle::driver::{Driver, WalkOrder};
use oracle::record::{flag, Operation::*, Record};
use oracle::storage::page_cache::inspect::RingEntry;

const DIRTY: u8 = flag::LOADED | flag::DIRTY;

fn driver_after(records: &[Record]) -> Driver {
    let mut driver = Driver::new(WalkOrder::ByKey);
    for record in records {
        driver.apply(record);
    }
    driver
}

/// The outcome with this answer, in a pool of capacity 9 whose pages have handles
/// ten times their keys, were never touched and are held by nobody.
fn after(code: u8, value: u64, list: &[u32], estimate: usize, ring: &[u32]) -> After {
    let entry = |&key: &u32| RingEntry {
        key,
        handle: 10 * key,
        uses: 0,
        holders: 0,
    };
    After {
        answer: Answer {
            code,
            value,
            passed: 0,
            held: ring.len(),
            hand: ring.first().copied(),
            list: list.to_vec(),
        },
        state: State {
            capacity: 9,
            spill_enabled: true,
            estimate,
            ring: ring.iter().map(entry).collect(),
        },
    }
}

#[test]
fn a_refused_truncation() {
    let driver = driver_after(&[
        create(9),
        insert(5),
        flagged(Insert, 6, flag::LOADED | flag::LOCKED),
        insert(7),
        flagged(Insert, 8, DIRTY),
        insert(4),
    ]);
    let walk = Walk::asked_for(&numbered(Truncate, 4), &driver).expect("a walk");
    let given = [
        after(5, 6, &[], 4, &[5, 4, 8, 7, 6]),
        after(5, 6, &[50], 3, &[4, 8, 7, 6]),
        after(5, 6, &[70], 3, &[5, 4, 8, 6]),
        after(5, 6, &[50, 70], 2, &[4, 8, 6]),
        after(6, 8, &[], 4, &[5, 4, 8, 7, 6]),
        after(6, 8, &[50, 70], 2, &[4, 8, 6]),
    ];
    for outcome in &given {
        assert!(walk.some_order_gives(outcome), "{outcome:?}");
    }
    let not_given = [
        // Nobody refuses, or the wrong page, or for the wrong reason.
        after(0, 0, &[50, 60, 70, 80], 0, &[4]),
        after(0, 0, &[50, 70], 2, &[4, 8, 6]),
        after(5, 5, &[], 4, &[5, 4, 8, 7, 6]),
        after(5, 4, &[50], 3, &[4, 8, 7, 6]),
        after(5, 9, &[50], 3, &[4, 8, 7, 6]),
        after(6, 6, &[50], 3, &[4, 8, 7, 6]),
        after(7, 8, &[50], 3, &[4, 8, 7, 6]),
        // A page that wasn't chosen or can't go is gone.
        after(5, 6, &[40], 3, &[5, 8, 7, 6]),
        after(5, 6, &[80], 4, &[5, 4, 7, 6]),
        // The list, the state and the answer don't fit each other.
        after(5, 6, &[50], 4, &[4, 8, 7, 6]),
        after(5, 6, &[50], 3, &[8, 7, 6, 4]),
        after(5, 6, &[50], 3, &[5, 4, 8, 7, 6]),
        after(5, 6, &[], 3, &[4, 8, 7, 6]),
        after(5, 6, &[70, 50], 2, &[4, 8, 6]),
        after(5, 6, &[50, 50], 3, &[4, 8, 7, 6]),
        after(5, 6, &[50, 99], 3, &[4, 8, 7, 6]),
    ];
    for outcome in &not_given {
        assert!(!walk.some_order_gives(outcome), "{outcome:?}");
    }
    assert_eq!(
        walk.by_ascending_key(&given[0].answer),
        Some(given[1].clone())
    );
}

#[test]
fn a_refused_clear() {
    let driver = driver_after(&[
        create(9),
        insert(5),
        flagged(Insert, 6, DIRTY),
        flagged(Insert, 7, DIRTY),
    ]);
    let walk = Walk::asked_for(&optional(Clear, 0), &driver).expect("a walk");
    for key in [6, 7] {
        assert!(walk.some_order_gives(&after(6, key, &[], 1, &[5, 7, 6])));
    }
    assert!(!walk.some_order_gives(&after(6, 5, &[], 1, &[5, 7, 6])));
    assert!(!walk.some_order_gives(&after(6, 6, &[50], 0, &[7, 6])));
    assert!(!walk.some_order_gives(&after(0, 0, &[50, 60, 70], 0, &[])));
    let dirty_too = Walk::asked_for(&optional(Clear, 1), &driver).expect("a walk");
    let done = after(0, 0, &[50, 60, 70], 0, &[]);
    assert_eq!(dirty_too.by_ascending_key(&done.answer), None);
}

#[test]
fn a_selection() {
    let mut records = vec![create(9)];
    records.extend((1..11).map(|key| flagged(ForceInsert, key, DIRTY)));
    let driver = driver_after(&records);
    let ring = [1, 10, 9, 8, 7, 6, 5, 4, 3, 2];
    let walk = Walk::asked_for(&numbered(CheckSpill, 2), &driver).expect("a walk");
    assert!(walk.some_order_gives(&after(0, 2, &[20, 30], 0, &ring)));
    assert!(walk.some_order_gives(&after(0, 2, &[40, 90], 0, &ring)));
    // Too few, too many, not by key, and page 1, which is never spilled.
    assert!(!walk.some_order_gives(&after(0, 1, &[20], 0, &ring)));
    assert!(!walk.some_order_gives(&after(0, 3, &[20, 30, 40], 0, &ring)));
    assert!(!walk.some_order_gives(&after(0, 2, &[90, 40], 0, &ring)));
    assert!(!walk.some_order_gives(&after(0, 2, &[10, 20], 0, &ring)));
    assert!(!walk.some_order_gives(&after(0, 2, &[20, 30], 1, &ring)));
    let rusts = after(0, 2, &[40, 90], 0, &ring);
    let ascending = after(0, 2, &[20, 30], 0, &ring);
    assert_eq!(walk.by_ascending_key(&rusts.answer), Some(ascending));
    // All nine fit, and none are asked for: no order matters.
    for (most, answer) in [
        (
            9,
            after(0, 9, &[20, 30, 40, 50, 60, 70, 80, 90, 100], 0, &ring),
        ),
        (0, after(19, 0, &[], 0, &ring)),
    ] {
        let walk = Walk::asked_for(&numbered(CheckSpill, most), &driver).expect("a walk");
        assert_eq!(walk.by_ascending_key(&answer.answer), None);
    }
}

#[test]
fn other_calls_are_no_walks() {
    let driver = driver_after(&[create(9), insert(5)]);
    for record in [insert(6), lookup(5), numbered(Resize, 0), create(1)] {
        assert!(Walk::asked_for(&record, &driver).is_none());
    }
    let nothing_created = driver_after(&[]);
    assert!(Walk::asked_for(&numbered(Truncate, 4), &nothing_created).is_none());
}
