//! Who holds a page: a hit adds a holder, a release takes one away, and the Rust's
//! strong count decides what goes.

use crate::pool::*;
use oracle::record::{flag, Operation::*, Record};

const DIRTY: u8 = flag::LOADED | flag::DIRTY;
/// As many holders as a page can have.
const MOST: usize = u16::MAX as usize;

fn peek(key: u32, touch: u8) -> Record {
    Record {
        option: touch,
        ..keyed(Peek, key)
    }
}

/// The three calls that can be a hit.
fn hits(key: u32) -> [Record; 3] {
    [lookup(key), peek(key, 0), peek(key, 1)]
}

fn held(record: Record, holders: u16) -> Record {
    Record { holders, ..record }
}

/// Page 5 in a pool of capacity 3, with these flags and holders.
fn page_5(flags: u8, holders: u16) -> Pool {
    let mut pool = Pool::created(3);
    pool.done(held(flagged(Insert, 5, flags), holders));
    pool
}

#[test]
fn a_hit_keeps_its_page_until_it_is_released() {
    for (hit, passed) in hits(5).into_iter().zip([1, 0, 1]) {
        let mut pool = Pool::created(1);
        pool.done(insert(5));
        pool.gives(hit, "0 50 0 1 5 0");
        pool.gives_and_keeps_state(insert(6), "8 0 4 1 5 0");
        pool.gives_and_keeps_state(evict_one(), "8 0 4 1 5 0");
        pool.gives_and_keeps_state(numbered(Resize, 0), "10 0 4 1 5 0");
        pool.gives(release(5), "0 0 0 1 5 0");
        pool.gives(insert(6), &format!("0 0 {passed} 1 6 1 50"));
    }
}

#[test]
fn each_hit_is_released_by_itself() {
    let mut pool = Pool::created(1);
    pool.done(insert(5));
    for (hit, holders) in hits(5).into_iter().zip(1..) {
        pool.done(hit);
        assert_eq!(pool.holders(), [(5, holders)]);
    }
    for holders in [2, 1, 0] {
        pool.gives(evict_one(), "8 0 4 1 5 0");
        pool.gives(release(5), "0 0 0 1 5 0");
        assert_eq!(pool.holders(), [(5, holders)]);
    }
    pool.gives_and_keeps_state(release(5), "? holders");
    pool.gives(evict_one(), "0 0 2 0 - 1 50");
}

#[test]
fn a_dirty_page_is_not_spilled_while_a_hit_holds_it() {
    let mut pool = Pool::created(1);
    pool.done(flagged(ForceInsert, 5, DIRTY));
    pool.done(flagged(ForceInsert, 6, DIRTY));
    pool.done(lookup(5));
    pool.gives(numbered(CheckSpill, 9), "0 1 0 2 5 1 60");
    pool.done(release(5));
    pool.gives(numbered(CheckSpill, 9), "0 2 0 2 5 2 50 60");
}

#[test]
fn a_miss_holds_nothing() {
    let mut pool = page_5(flag::DIRTY, 1);
    pool.gives_and_keeps_state(lookup(5), "6 5 0 1 5 0");
    for miss in hits(6) {
        pool.gives_and_keeps_state(miss, "4 0 0 1 5 0");
    }
}

#[test]
fn a_stale_page_is_deleted_before_its_holders_are_counted() {
    let most = u16::MAX;
    page_5(0, most).gives(lookup(5), "4 0 0 0 - 1 50");
    page_5(flag::DIRTY, most).gives_and_keeps_state(lookup(5), "6 5 0 1 5 0");
    let mut pool = page_5(0, 0);
    let pinned = Record {
        pins: 1,
        ..held(flagged(WriteRecord, 5, 0), most)
    };
    pool.done(pinned);
    pool.gives_and_keeps_state(lookup(5), "7 5 0 1 5 0");
    // A locked page isn't stale.
    page_5(flag::LOCKED, most).gives_and_keeps_state(lookup(5), "? holders");
}

#[test]
fn peek_holds_a_stale_page() {
    for touch in [0, 1] {
        let mut pool = page_5(0, 0);
        pool.gives(peek(5, touch), "0 50 0 1 5 0");
        pool.gives(release(5), "0 0 0 1 5 0");
        pool.gives_and_keeps_state(release(5), "? holders");
        page_5(0, u16::MAX).gives_and_keeps_state(peek(5, touch), "? holders");
    }
}

#[test]
fn a_page_has_at_most_65_535_holders() {
    for hit in hits(5) {
        let mut pool = page_5(flag::LOADED, u16::MAX - 1);
        pool.gives(hit, "0 50 0 1 5 0");
        assert_eq!(pool.holders(), [(5, MOST)]);
        for refused in hits(5) {
            pool.gives_and_keeps_state(refused, "? holders");
        }
        // The same page again is no hit.
        pool.touch(5);
        pool.gives(release(5), "0 0 0 1 5 0");
        pool.gives(hit, "0 50 0 1 5 0");
        assert_eq!(pool.holders(), [(5, MOST)]);
    }
}

#[test]
fn a_release_changes_nothing_but_the_holders() {
    let mut pool = Pool::created(9);
    let pages = [
        (1, flag::LOADED),
        (5, flag::LOADED | flag::LOCKED),
        (6, DIRTY),
        (7, 0),
        (8, flag::DIRTY),
    ];
    for (key, flags) in pages {
        pool.done(held(flagged(Insert, key, flags), 2));
    }
    pool.done(peek(5, 1));
    for (key, _) in pages {
        let mut left = pool.state();
        let page = left.ring.iter_mut().find(|entry| entry.key == key).unwrap();
        page.holders -= 1;
        pool.gives(release(key), "0 0 0 5 1 0");
        assert_eq!(pool.state(), left);
    }
    pool.gives_and_keeps_state(release(9), "4 0 0 5 1 0");
}

#[test]
fn a_release_uses_no_other_field() {
    let mut pool = page_5(flag::LOADED, 1);
    let every_field = Record {
        flags: 255,
        pins: 1,
        handle: 99,
        holders: 9,
        overflow_cells: 1,
        option: 1,
        number: u64::MAX,
        ..release(5)
    };
    pool.gives(every_field, "0 0 0 1 5 0");
    assert_eq!(pool.holders(), [(5, 0)]);
    let bad = Record {
        option: 2,
        ..release(5)
    };
    pool.gives_and_keeps_state(bad, "? record");
    Pool::before_creation().gives(release(5), "? no cache");
}

#[test]
fn a_release_takes_from_the_page_that_stands_there_now() {
    let replaced = |holders| Record {
        handle: 51,
        ..held(paged(ForceUpsert, 5), holders)
    };
    let mut pool = page_5(flag::LOADED, 0);
    pool.done(lookup(5));
    pool.gives(replaced(0), "0 50 0 1 5 0");
    pool.gives_and_keeps_state(release(5), "? holders");

    let mut pool = page_5(flag::LOADED, 0);
    pool.gives(replaced(1), "0 50 0 1 5 0");
    pool.gives(release(5), "0 0 0 1 5 0");
    pool.gives_and_keeps_state(release(5), "? holders");
}

#[test]
fn holders_go_with_their_page() {
    let ways = [
        keyed(Delete, 5),
        numbered(Truncate, 4),
        numbered(RemoveFrames, 6),
        optional(Clear, 0),
        create(3),
    ];
    let tagged = Record {
        number: 7,
        ..flagged(Insert, 5, flag::LOADED | flag::WAL_TAG)
    };
    for way in ways {
        let mut pool = Pool::created(3);
        pool.done(tagged);
        pool.done(lookup(5));
        pool.done(way);
        pool.gives_and_keeps_state(release(5), "4 0 0 0 - 0");
        pool.done(tagged);
        pool.gives_and_keeps_state(release(5), "? holders");
    }
}

#[test]
fn the_same_page_again_holds_nothing() {
    for operation in [Insert, ForceInsert] {
        let mut pool = page_5(flag::LOADED, 0);
        pool.gives(paged(operation, 5), "9 0 0 1 5 0");
        pool.gives_and_keeps_state(release(5), "? holders");
    }
    // It keeps its holders, whatever the record says.
    let mut pool = page_5(flag::LOADED, 2);
    pool.gives(held(insert(5), 9), "9 0 0 1 5 0");
    assert_eq!(pool.holders(), [(5, 2)]);
    pool.gives(held(paged(ForceUpsert, 5), 2), "0 50 0 1 5 0");
    assert_eq!(pool.holders(), [(5, 2)]);
}

#[test]
fn a_record_write_sets_the_holders() {
    let mut pool = page_5(flag::LOADED, 0);
    pool.done(lookup(5));
    pool.done(paged(WriteRecord, 5));
    pool.gives_and_keeps_state(release(5), "? holders");
    for holders in [u16::MAX, 3, 1] {
        pool.done(held(paged(WriteRecord, 5), holders));
        assert_eq!(pool.holders(), [(5, holders.into())]);
    }
    pool.done(release(5));
    pool.gives(evict_one(), "0 0 1 0 - 1 50");
}
