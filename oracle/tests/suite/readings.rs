//! How document 01 is read where the Rust can confirm it.

use crate::pool::*;
use oracle::record::{flag, Operation::*, PageRecord, Record};
use oracle::storage::page_cache::{inspect, CacheError, PageCache, PageCacheKey, SpillResult};
use oracle::storage::pager::{Page, PageRef};
use oracle::sync::Arc;
use std::panic::{catch_unwind, AssertUnwindSafe};

const LOADED: u8 = flag::LOADED;
const DIRTY: u8 = flag::LOADED | flag::DIRTY;
const SPILLED: u8 = flag::LOADED | flag::DIRTY | flag::SPILLED;

fn page(key: u32, handle: u32, flags: u8) -> PageRef {
    let record = PageRecord {
        flags,
        ..PageRecord::default()
    };
    Arc::new(Page::new(key, handle, &record))
}

/// Capacity 1 and two dirty pages: a spill is needed.
fn spill_needed() -> Pool {
    let mut pool = Pool::created(1);
    pool.done(flagged(Insert, 5, DIRTY));
    pool.done(flagged(ForceInsert, 6, DIRTY));
    pool
}

#[test]
fn insert_touches_before_it_asserts() {
    let key = PageCacheKey::new(5);
    let mut cache = PageCache::new(2);
    cache.insert(key, page(5, 50, LOADED)).unwrap();
    assert_eq!(inspect::ring(&cache)[0].uses, 0);
    let end = catch_unwind(AssertUnwindSafe(|| cache.insert(key, page(5, 51, LOADED))));
    let panic = end.expect_err("the Rust asserts");
    let message = panic.downcast_ref::<String>().expect("it has a message");
    assert!(message.starts_with("Attempted to insert different page with same key"));
    assert_eq!(inspect::ring(&cache)[0].uses, 1);
    assert_eq!(inspect::ring(&cache)[0].handle, 50);
}

#[test]
fn a_switch_that_is_off_means_not_needed() {
    let mut cache = PageCache::new(1);
    for key in [5, 6] {
        let page = page(key, key * 10, DIRTY);
        let key = PageCacheKey::new(key as usize);
        cache.force_insert_page(key, page).unwrap();
    }
    assert!(matches!(cache.check_spill(9), SpillResult::PagesToSpill(_)));
    cache.set_spill_enabled(false);
    assert!(matches!(cache.check_spill(9), SpillResult::NotNeeded));

    let mut pool = spill_needed();
    pool.done(optional(SetSpill, 0));
    pool.gives(numbered(CheckSpill, 9), "18 0 0 2 5 0");
    pool.done(optional(SetSpill, 1));
    pool.gives(numbered(CheckSpill, 9), "0 2 0 2 5 2 50 60");
}

#[test]
fn pages_are_pinned_while_their_guards_live() {
    let mut cache = PageCache::new(1);
    for key in [5, 6] {
        let page = page(key, key * 10, DIRTY);
        let key = PageCacheKey::new(key as usize);
        cache.force_insert_page(key, page).unwrap();
    }
    let guards = cache.check_spill(9);
    assert!(inspect::pages(&cache).all(|(_, page)| page.is_pinned()));
    drop(guards);
    assert!(!inspect::pages(&cache).any(|(_, page)| page.is_pinned()));
}

#[test]
fn nothing_to_select_answers_19_only_if_needed() {
    spill_needed().gives_and_keeps_state(numbered(CheckSpill, 0), "19 0 0 2 5 0");
    let mut pool = Pool::created(1);
    pool.done(flagged(Insert, 5, DIRTY));
    pool.gives_and_keeps_state(numbered(CheckSpill, 0), "18 0 0 1 5 0");
}

#[test]
fn held_equal_to_the_threshold_needs_no_spill() {
    let mut pool = Pool::created(20);
    for key in 2..20 {
        pool.done(flagged(Insert, key, DIRTY));
    }
    pool.gives(numbered(CheckSpill, 99), "18 0 0 18 2 0");
}

#[test]
fn a_spill_can_be_needed_below_capacity_and_find_nothing() {
    let mut pool = Pool::created(100);
    for key in 2..97 {
        let with_overflow_cells = Record {
            overflow_cells: 1,
            ..flagged(Insert, key, DIRTY)
        };
        pool.done(with_overflow_cells);
    }
    // 95 held: 5 places free and 5 too many.
    pool.gives(numbered(CheckSpill, 99), "18 0 0 95 2 0");
    pool.done(flagged(Insert, 97, DIRTY | flag::LOCKED));
    pool.gives(numbered(CheckSpill, 99), "19 0 0 96 2 0");
}

#[test]
fn selection_takes_only_spillable_pages_and_ignores_loaded() {
    let mut pool = Pool::created(1);
    let dirty = |key| flagged(ForceInsert, key, DIRTY);
    pool.done(flagged(ForceInsert, 9, flag::DIRTY));
    pool.done(dirty(1));
    pool.done(Record {
        pins: 1,
        ..dirty(2)
    });
    pool.done(Record {
        holders: 1,
        ..dirty(3)
    });
    pool.done(Record {
        overflow_cells: 1,
        ..dirty(4)
    });
    pool.done(flagged(ForceInsert, 5, DIRTY | flag::LOCKED));
    pool.done(dirty(6));
    pool.gives(numbered(CheckSpill, 99), "0 2 0 7 9 2 60 90");
    pool.done(flagged(WriteRecord, 6, SPILLED));
    pool.gives(numbered(CheckSpill, 99), "0 1 0 7 9 1 90");
}

#[test]
fn the_estimate_decides_before_the_count() {
    let mut pool = spill_needed();
    pool.done(keyed(NotifySpilled, 5));
    pool.gives(numbered(CheckSpill, 9), "18 0 0 2 5 0");
    pool.done(keyed(NotifyDirty, 5));
    pool.gives(numbered(CheckSpill, 9), "0 2 0 2 5 2 50 60");
    // An estimate that is too low changes nothing if enough pages may go.
    pool.done(flagged(WriteRecord, 5, SPILLED));
    assert_eq!(pool.estimate(), 0);
    pool.gives(numbered(CheckSpill, 9), "18 0 0 2 5 0");
}

#[test]
fn notices_count_whatever_the_flags() {
    let mut pool = Pool::created(9);
    for (key, flags) in [(1, LOADED), (5, LOADED), (6, DIRTY), (7, SPILLED), (8, 0)] {
        pool.done(flagged(Insert, key, flags));
    }
    assert_eq!(pool.estimate(), 3);
    for (key, estimate) in [(1, 3), (99, 3), (5, 2), (6, 1), (6, 0), (8, 0)] {
        pool.gives(keyed(NotifyDirty, key), "0 0 0 5 1 0");
        assert_eq!(pool.estimate(), estimate, "dirty {key}");
    }
    for (key, estimate) in [(1, 0), (99, 0), (5, 1), (6, 2), (7, 3), (7, 4), (8, 5)] {
        pool.gives(keyed(NotifySpilled, key), "0 0 0 5 1 0");
        assert_eq!(pool.estimate(), estimate, "spilled {key}");
    }
    assert!(pool.ring().iter().all(|&(_, uses)| uses == 0));
}

#[test]
fn a_removal_is_judged_by_the_record_at_that_moment() {
    let mut pool = Pool::created(9);
    pool.done(flagged(Insert, 5, DIRTY));
    pool.done(insert(6));
    assert_eq!(pool.estimate(), 1);
    pool.done(paged(WriteRecord, 5));
    assert_eq!(pool.estimate(), 1);
    pool.done(keyed(Delete, 5));
    assert_eq!(pool.estimate(), 0);
    pool.done(keyed(Delete, 6));
    assert_eq!(pool.estimate(), 0);
}

#[test]
fn resize_to_the_same_capacity_does_nothing() {
    let mut pool = Pool::created(1);
    pool.done(flagged(Insert, 5, DIRTY));
    pool.done(flagged(ForceInsert, 6, DIRTY));
    pool.done(flagged(ForceInsert, 7, DIRTY));
    for key in [5, 6, 7] {
        pool.done(paged(WriteRecord, key));
    }
    pool.gives_and_keeps_state(numbered(Resize, 1), "0 0 0 3 5 0");
    // A larger capacity that is still too small evicts.
    pool.gives(numbered(Resize, 2), "0 0 0 2 7 1 50");
    assert_eq!(pool.state().capacity, 2);
}

#[test]
fn a_pending_resize_keeps_its_evictions_and_its_capacity() {
    let mut pool = Pool::created(3);
    pool.done(flagged(Insert, 5, DIRTY));
    pool.done(insert(6));
    pool.touch(6);
    pool.done(flagged(Insert, 7, DIRTY));
    assert_eq!(pool.ring(), [(5, 0), (7, 0), (6, 1)]);
    // Five pages passed before 6 goes, then 4 * 2.
    pool.gives(numbered(Resize, 1), "10 0 13 2 5 1 60");
    assert_eq!(pool.state().capacity, 3);
}

#[test]
fn a_failed_sweep_changes_nothing() {
    let mut pool = Pool::created(4);
    for record in [
        insert(1),
        flagged(Insert, 5, DIRTY),
        flagged(Insert, 6, LOADED | flag::LOCKED),
        Record {
            holders: u16::MAX,
            ..insert(7)
        },
    ] {
        pool.done(record);
        pool.touch(record.key);
    }
    pool.gives_and_keeps_state(evict_one(), "8 0 16 4 1 0");
    pool.gives_and_keeps_state(insert(9), "8 0 16 4 1 0");
}

#[test]
fn only_pages_that_may_go_lose_uses() {
    let mut pool = Pool::created(3);
    pool.done(flagged(Insert, 5, LOADED | flag::LOCKED));
    pool.done(insert(6));
    for key in [5, 5, 6, 6] {
        pool.touch(key);
    }
    pool.gives(evict_one(), "0 0 5 1 5 1 60");
    assert_eq!(pool.ring(), [(5, 2)]);
}

#[test]
fn a_sweep_ignores_loaded_tags_and_overflow_cells() {
    let mut pool = Pool::created(3);
    let odd = Record {
        overflow_cells: 255,
        number: 7,
        ..flagged(Insert, 5, flag::WAL_TAG)
    };
    pool.done(odd);
    pool.gives(evict_one(), "0 0 0 0 - 1 50");
    pool.gives(evict_one(), "14 0 0 0 - 0");
}

#[test]
fn capacity_0_means_nothing_to_evict_one() {
    let mut pool = Pool::created(0);
    pool.done(paged(ForceInsert, 5));
    pool.gives(evict_one(), "0 0 0 0 - 1 50");
}

#[test]
fn dirty_and_spilled_may_go_and_is_not_clean() {
    let mut pool = Pool::created(3);
    let tagged = Record {
        number: 7,
        ..flagged(Insert, 5, SPILLED | flag::WAL_TAG)
    };
    pool.done(tagged);
    assert_eq!(pool.estimate(), 1);
    pool.gives(keyed(Delete, 5), "6 5 0 1 5 0");
    pool.gives(optional(Clear, 0), "6 5 0 1 5 0");
    pool.gives(numbered(RemoveFrames, 0), "0 0 0 1 5 0");
    pool.gives(evict_one(), "0 0 0 0 - 1 50");
}

#[test]
fn deletion_tests_locked_dirty_pinned_in_that_order() {
    let mut pool = Pool::created(3);
    let write = |flags, pins| Record {
        pins,
        holders: 9,
        ..flagged(WriteRecord, 1, flags)
    };
    pool.done(insert(1));
    pool.done(write(flag::LOCKED | flag::DIRTY, 1));
    pool.gives(keyed(Delete, 1), "5 1 0 1 1 0");
    pool.done(write(flag::DIRTY, 1));
    pool.gives(keyed(Delete, 1), "6 1 0 1 1 0");
    pool.done(write(0, 1));
    pool.gives(keyed(Delete, 1), "7 1 0 1 1 0");
    // Neither holders nor page 1 stop it.
    pool.done(write(0, 0));
    pool.gives(keyed(Delete, 1), "0 0 0 0 - 1 10");
    pool.gives(keyed(Delete, 1), "0 0 0 0 - 0");
}

#[test]
fn removing_the_hands_page_moves_the_hand_on() {
    let mut pool = Pool::created(3);
    for key in [5, 6, 7] {
        pool.done(insert(key));
    }
    pool.gives(keyed(Delete, 5), "0 0 0 2 7 1 50");
    pool.gives(keyed(Delete, 6), "0 0 0 1 7 1 60");
    pool.gives(keyed(Delete, 7), "0 0 0 0 - 1 70");
}

#[test]
fn lookup_of_a_stale_page_deletes_it() {
    let mut pool = Pool::created(3);
    let pinned = Record {
        pins: 1,
        ..flagged(Insert, 6, 0)
    };
    pool.done(flagged(Insert, 5, flag::DIRTY));
    pool.done(pinned);
    pool.done(flagged(Insert, 7, 0));
    pool.gives_and_keeps_state(lookup(5), "6 5 0 3 5 0");
    pool.gives_and_keeps_state(lookup(6), "7 6 0 3 5 0");
    pool.gives(lookup(7), "4 0 0 2 5 1 70");
    // Locked is not stale.
    pool.done(flagged(Insert, 8, flag::LOCKED));
    pool.gives(lookup(8), "0 80 0 3 5 0");
}

#[test]
fn peek_of_a_stale_page_is_a_hit() {
    let mut pool = Pool::created(3);
    pool.done(flagged(Insert, 5, 0));
    pool.gives(keyed(Peek, 5), "0 50 0 1 5 0");
    assert_eq!(pool.ring(), [(5, 0)]);
    let touching = Record {
        option: 1,
        ..keyed(Peek, 5)
    };
    pool.gives(touching, "0 50 0 1 5 0");
    assert_eq!(pool.ring(), [(5, 1)]);
}

#[test]
fn the_same_handle_again_is_one_touch() {
    let mut pool = Pool::created(1);
    pool.done(insert(5));
    pool.gives(insert(5), "9 0 0 1 5 0");
    pool.gives(paged(ForceInsert, 5), "9 0 0 1 5 0");
    assert_eq!(pool.ring(), [(5, 2)]);
    // The page kept its holders: none.
    pool.gives(insert(6), "0 0 2 1 6 1 50");
}

#[test]
fn upsert_in_place_answers_the_old_handle() {
    let mut pool = Pool::created(2);
    let locked_dirty_pinned = Record {
        pins: 1,
        ..flagged(Insert, 1, flag::LOCKED | flag::DIRTY)
    };
    pool.done(locked_dirty_pinned);
    pool.done(insert(5));
    pool.done(lookup(5));
    let other = |key, handle, flags| Record {
        handle,
        ..flagged(ForceUpsert, key, flags)
    };
    pool.gives(other(1, 11, LOADED), "0 10 0 2 1 0");
    assert_eq!(pool.estimate(), 1);
    pool.gives(other(5, 51, DIRTY), "0 50 0 2 1 0");
    assert_eq!(pool.estimate(), 0);
    pool.gives(other(5, 51, DIRTY), "0 51 0 2 1 0");
    assert_eq!(pool.ring(), [(1, 1), (5, 3)]);
    pool.gives(other(5, 52, LOADED), "0 51 0 2 1 0");
    assert_eq!(pool.estimate(), 1);
}

#[test]
fn upsert_on_a_stale_key_lists_the_old_handle() {
    let mut pool = Pool::created(2);
    pool.done(flagged(Insert, 5, 0));
    let other = Record {
        handle: 51,
        ..paged(ForceUpsert, 5)
    };
    pool.gives(other, "0 0 0 1 5 1 50");
    assert_eq!(pool.ring(), [(5, 0)]);
}

#[test]
fn a_stale_page_may_come_again_with_its_record() {
    let mut pool = Pool::created(2);
    let held = Record {
        holders: 2,
        ..flagged(Insert, 5, 0)
    };
    pool.done(held);
    pool.gives(held, "0 0 0 1 5 1 50");
    // It came with its holders.
    pool.gives(evict_one(), "8 0 4 1 5 0");
    pool.done(flagged(WriteRecord, 5, 0));
    pool.gives(evict_one(), "0 0 0 0 - 1 50");
}

#[test]
fn a_full_cache_lists_the_stale_page_before_the_evicted() {
    let mut pool = Pool::created(1);
    pool.done(insert(1));
    pool.done(flagged(ForceInsert, 5, DIRTY));
    pool.done(flagged(ForceInsert, 6, DIRTY));
    assert_eq!(pool.ring(), [(1, 0), (6, 0), (5, 0)]);
    pool.done(flagged(WriteRecord, 5, 0));
    pool.done(flagged(WriteRecord, 6, LOADED));
    let other = Record {
        handle: 51,
        ..insert(5)
    };
    pool.gives(other, "8 0 5 1 1 2 50 60");
}

#[test]
fn truncation_compares_64_bits() {
    let mut pool = Pool::created(9);
    for key in [0, 1, 5, u32::MAX] {
        pool.done(insert(key));
    }
    for limit in [u64::from(u32::MAX), 1 << 32, (1 << 32) + 1, u64::MAX] {
        pool.gives_and_keeps_state(numbered(Truncate, limit), "0 0 0 4 0 0");
    }
    let last = u32::MAX.wrapping_mul(10);
    let answer = format!("0 0 0 3 0 1 {last}");
    pool.gives(numbered(Truncate, u64::from(u32::MAX) - 1), &answer);
    pool.gives(numbered(Truncate, 0), "0 0 0 1 0 2 10 50");
}

#[test]
fn frame_removal_takes_clean_tagged_pages_above_the_limit() {
    let mut pool = Pool::created(9);
    let frame = |key, flags, number| Record {
        number,
        ..flagged(Insert, key, flags)
    };
    let tagged = LOADED | flag::WAL_TAG;
    pool.done(frame(5, tagged, 7));
    pool.done(frame(6, tagged, 8));
    pool.done(frame(7, LOADED, 9));
    pool.done(frame(8, tagged | flag::DIRTY, 9));
    pool.done(frame(4, tagged, u64::MAX));
    pool.gives(numbered(RemoveFrames, u64::MAX), "0 0 0 5 5 0");
    pool.gives(numbered(RemoveFrames, 7), "0 0 0 3 5 2 40 60");
    let locked = Record {
        number: 7,
        ..flagged(WriteRecord, 5, tagged | flag::LOCKED)
    };
    pool.done(locked);
    pool.gives_and_keeps_state(numbered(RemoveFrames, 6), "5 5 0 3 5 0");
}

#[test]
fn clear_tests_dirty_only() {
    let mut pool = Pool::created(9);
    let stuck = Record {
        pins: 1,
        holders: 1,
        ..flagged(Insert, 6, LOADED | flag::LOCKED)
    };
    pool.done(stuck);
    pool.done(flagged(Insert, 5, DIRTY));
    pool.done(insert(7));
    pool.done(optional(SetSpill, 0));
    pool.gives_and_keeps_state(optional(Clear, 0), "6 5 0 3 6 0");
    pool.gives(optional(Clear, 1), "0 0 0 0 - 3 50 60 70");
    let state = pool.state();
    assert_eq!((state.capacity, state.estimate), (9, 0));
    assert!(!state.spill_enabled);
}

#[test]
fn a_second_creation_resets_everything_and_lists_nothing() {
    let mut pool = Pool::created(9);
    pool.done(insert(5));
    pool.done(optional(SetSpill, 0));
    pool.gives(create(2), "0 0 0 0 - 0");
    assert_eq!(pool.state().to_string(), "- 2 1 0 0");
}

#[test]
fn key_0_and_handle_0_are_legal() {
    let mut pool = Pool::created(1);
    pool.gives(insert(0), "0 0 0 1 0 0");
    pool.gives(lookup(0), "0 0 0 1 0 0");
    pool.gives(release(0), "0 0 0 1 0 0");
    pool.gives(insert(9), "0 0 1 1 9 1 0");
}

#[test]
fn evicting_from_an_empty_cache_is_an_internal_error() {
    let mut cache = PageCache::new(3);
    assert!(matches!(
        inspect::evict_one(&mut cache),
        Err(CacheError::InternalError(_))
    ));
}
