//! What the Rust isn't asked about, and the order of these tests.

use crate::pool::*;
use oracle::record::{flag, Operation, Operation::*, Record};

const INSERTIONS: [Operation; 3] = [Insert, ForceInsert, ForceUpsert];

/// Pages 5 and 6 in a pool of capacity 3.
fn two_pages() -> Pool {
    let mut pool = Pool::created(3);
    pool.done(insert(5));
    pool.done(insert(6));
    pool
}

#[test]
fn a_bad_record_comes_first() {
    let mut pool = two_pages();
    for operation in Operation::ALL.len() as u8..=u8::MAX {
        let record = Record {
            operation,
            ..Record::default()
        };
        pool.gives_and_keeps_state(record, "? record");
    }
    for operation in Operation::ALL {
        let good = Record {
            flags: 200,
            number: 257,
            ..Record::new(operation)
        };
        for option in [2, 255] {
            pool.gives_and_keeps_state(Record { option, ..good }, "? record");
        }
        for tail in [1, 1 << 8, 1 << 63] {
            pool.gives_and_keeps_state(Record { tail, ..good }, "? record");
        }
    }
    let before_creation = Record {
        tail: 1,
        ..lookup(5)
    };
    Pool::before_creation().gives(before_creation, "? record");
}

#[test]
fn no_cache_before_the_first_good_creation() {
    let mut pool = Pool::before_creation();
    for operation in Operation::ALL.into_iter().filter(|&o| o != Create) {
        let record = Record {
            flags: 200,
            number: 257,
            ..Record::new(operation)
        };
        pool.gives(record, "? no cache");
    }
    pool.gives(create(257), "? capacity");
    pool.gives(lookup(5), "? no cache");
    pool.gives(create(256), "0 0 0 0 - 0");
    pool.gives(lookup(5), "4 0 0 0 - 0");
}

#[test]
fn capacity_above_256() {
    let mut pool = two_pages();
    for operation in [Create, Resize] {
        for capacity in [257, 1 << 32, (1 << 32) + 2, u64::MAX] {
            pool.gives_and_keeps_state(numbered(operation, capacity), "? capacity");
        }
    }
    pool.gives(numbered(Resize, 256), "0 0 0 2 5 0");
}

#[test]
fn flags_above_31_where_a_page_record_is_taken() {
    let mut pool = two_pages();
    for flags in [32, 200, 255] {
        for operation in INSERTIONS {
            let handle_taken_too = Record {
                handle: 50,
                ..flagged(operation, 6, flags)
            };
            pool.gives_and_keeps_state(handle_taken_too, "? flags");
        }
        pool.gives_and_keeps_state(flagged(WriteRecord, 7, flags), "? flags");
        pool.gives(flagged(Get, 7, flags), "4 0 0 2 5 0");
    }
    pool.gives(flagged(WriteRecord, 7, flag::ALL), "4 0 0 2 5 0");
    pool.gives(flagged(WriteRecord, 6, flag::ALL), "0 0 0 2 5 0");
}

#[test]
fn a_handle_under_another_key() {
    let mut pool = two_pages();
    for operation in INSERTIONS {
        for key in [6, 7] {
            let record = Record {
                handle: 50,
                ..paged(operation, key)
            };
            pool.gives_and_keeps_state(record, "? handle taken");
        }
    }
    // A stale key stays too.
    pool.done(flagged(WriteRecord, 6, 0));
    let on_stale_key = Record {
        handle: 50,
        ..insert(6)
    };
    pool.gives_and_keeps_state(on_stale_key, "? handle taken");
    // A handle is free again once its page is gone.
    pool.done(keyed(Delete, 5));
    pool.gives(on_stale_key, "0 0 0 1 6 1 60");
}

#[test]
fn a_handle_is_free_again_after_each_way_to_lose_it() {
    let again = Record {
        handle: 50,
        ..insert(7)
    };
    let replaced = Record {
        handle: 51,
        ..paged(ForceUpsert, 5)
    };
    let ways = [
        keyed(Delete, 5),
        numbered(Truncate, 4),
        optional(Clear, 0),
        evict_one(),
        create(3),
        replaced,
    ];
    for way in ways {
        let mut pool = Pool::created(3);
        pool.done(insert(5));
        pool.gives(again, "? handle taken");
        pool.done(way);
        pool.done(again);
    }
}

#[test]
fn another_page_under_a_present_key() {
    let mut pool = two_pages();
    for operation in [Insert, ForceInsert] {
        let record = Record {
            handle: 51,
            ..paged(operation, 5)
        };
        pool.gives_and_keeps_state(record, "? other page");
    }
    pool.done(flagged(WriteRecord, 5, flag::LOCKED));
    let on_locked_key = Record {
        handle: 51,
        ..insert(5)
    };
    pool.gives_and_keeps_state(on_locked_key, "? other page");
}

#[test]
fn another_record_for_the_same_page() {
    let mut pool = two_pages();
    let own = paged(ForceUpsert, 5);
    let others = [
        Record { flags: 5, ..own },
        Record { pins: 1, ..own },
        Record { holders: 1, ..own },
        Record {
            overflow_cells: 1,
            ..own
        },
        Record { number: 1, ..own },
    ];
    for other in others {
        pool.gives_and_keeps_state(other, "? other record");
    }
    pool.gives(own, "0 50 0 2 5 0");
    pool.done(flagged(WriteRecord, 5, 0));
    for operation in INSERTIONS {
        pool.gives_and_keeps_state(paged(operation, 5), "? other record");
    }
    // Where the cache keeps its page, the record doesn't matter.
    pool.gives(flagged(Insert, 6, flag::DIRTY), "9 0 0 2 5 0");
}

/// 256 dirty pages, none of which may go.
fn full_pool(capacity: u64) -> Pool {
    let mut pool = Pool::created(capacity);
    for key in 1_000..1_256 {
        pool.done(flagged(ForceInsert, key, flag::LOADED | flag::DIRTY));
    }
    assert_eq!(pool.ring().len(), 256);
    pool
}

#[test]
fn a_257th_slot() {
    for capacity in [0, 1, 100, 256] {
        let mut pool = full_pool(capacity);
        for operation in [ForceInsert, ForceUpsert] {
            pool.gives_and_keeps_state(paged(operation, 5), "? slots");
        }
        let sweep = if capacity == 0 { 0 } else { 4 * 256 };
        pool.gives(insert(5), &format!("8 0 {sweep} 256 1000 0"));
        // A present key needs no slot, and a stale one gives its own up.
        let replacement = Record {
            handle: 1,
            ..paged(ForceUpsert, 1_000)
        };
        pool.gives(replacement, "0 10000 0 256 1000 0");
        pool.done(flagged(WriteRecord, 1_001, 0));
        let on_stale_key = Record {
            handle: 2,
            ..paged(ForceInsert, 1_001)
        };
        let answer = pool.call(on_stale_key);
        assert!(answer.starts_with("0 0 "), "{answer}");
    }
}

#[test]
fn a_full_pool_makes_room_if_a_page_may_go() {
    let mut pool = full_pool(100);
    pool.done(paged(WriteRecord, 1_000));
    // The hand's page goes, and then a sweep fails.
    pool.gives(paged(ForceInsert, 5), "0 0 1020 256 1255 1 10000");

    // Without a capacity there is no sweep.
    let mut pool = full_pool(0);
    pool.done(paged(WriteRecord, 1_000));
    pool.gives_and_keeps_state(paged(ForceInsert, 5), "? slots");
}
