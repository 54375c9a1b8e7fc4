//! Document 01's example and its sweeps to check by hand.

use crate::pool::*;
use oracle::record::{flag, Operation::*, Record};

#[test]
fn example_of_the_replay_program() {
    let page = |key, handle| Record {
        handle,
        ..insert(key)
    };
    let mut pool = Pool::before_creation();
    pool.gives(create(2), "0 0 0 0 - 0");
    pool.gives(page(10, 100), "0 0 0 1 10 0");
    pool.gives(page(20, 200), "0 0 0 2 10 0");
    pool.gives(lookup(10), "0 100 0 2 10 0");
    pool.gives(page(30, 300), "0 0 1 2 10 1 200");
    pool.gives(lookup(20), "4 0 0 2 10 0");
    // The sweep passed 10, which is held, and took no use of it.
    assert_eq!(pool.ring(), [(10, 1), (30, 0)]);
    assert_eq!(pool.holders(), [(10, 1), (30, 0)]);
}

#[test]
fn p1_the_hand_moves_on_and_young_pages_go() {
    let mut pool = Pool::created(3);
    pool.gives(insert(5), "0 0 0 1 5 0");
    pool.gives(insert(6), "0 0 0 2 5 0");
    pool.gives(insert(7), "0 0 0 3 5 0");
    assert_eq!(pool.ring(), [(5, 0), (7, 0), (6, 0)]);
    pool.gives(insert(8), "0 0 0 3 7 1 50");
    assert_eq!(pool.ring(), [(7, 0), (8, 0), (6, 0)]);
    pool.gives(insert(9), "0 0 0 3 8 1 70");
    assert_eq!(pool.ring(), [(8, 0), (9, 0), (6, 0)]);
}

#[test]
fn p2_one_page_with_count_3() {
    let mut pool = Pool::created(3);
    pool.done(insert(5));
    for _ in 0..5 {
        pool.touch(5);
    }
    assert_eq!(pool.ring(), [(5, 3)]);
    pool.gives(evict_one(), "0 0 3 0 - 1 50");
    assert_eq!(pool.ring(), []);
}

#[test]
fn p3_three_pages_with_count_3() {
    let mut pool = Pool::created(3);
    for key in [5, 6, 7] {
        pool.done(insert(key));
        for _ in 0..3 {
            pool.touch(key);
        }
    }
    assert_eq!(pool.ring(), [(5, 3), (7, 3), (6, 3)]);
    pool.gives(evict_one(), "0 0 9 2 7 1 50");
    assert_eq!(pool.ring(), [(7, 0), (6, 0)]);
}

#[test]
fn p4_counts_2_and_1() {
    let mut pool = Pool::created(3);
    pool.done(insert(5));
    pool.done(insert(6));
    for key in [5, 5, 6] {
        pool.touch(key);
    }
    assert_eq!(pool.ring(), [(5, 2), (6, 1)]);
    pool.gives(evict_one(), "0 0 3 1 5 1 60");
    assert_eq!(pool.ring(), [(5, 0)]);
}

/// P5, and P6's forced insertion.
fn page_1_and_a_forced_page() -> Pool {
    let mut pool = Pool::created(1);
    pool.done(insert(1));
    pool.gives(insert(2), "8 0 4 1 1 0");
    assert_eq!(pool.ring(), [(1, 0)]);
    pool.gives(paged(ForceInsert, 2), "0 0 4 2 1 0");
    assert_eq!(pool.ring(), [(1, 0), (2, 0)]);
    pool
}

#[test]
fn p5_and_p6_page_1_stays() {
    let mut pool = page_1_and_a_forced_page();
    pool.gives(insert(3), "8 0 5 1 1 1 20");
    assert_eq!(pool.ring(), [(1, 0)]);
}

#[test]
fn p7_a_stale_page_is_gone_even_if_the_insertion_is_refused() {
    let mut pool = page_1_and_a_forced_page();
    pool.gives(flagged(WriteRecord, 2, 0), "0 0 0 2 1 0");
    // Its own handle comes with the record that was written.
    pool.gives(flagged(Insert, 2, 0), "8 0 4 1 1 1 20");
    assert_eq!(pool.ring(), [(1, 0)]);
}

fn dirty_pages(count: u32) -> Pool {
    let mut pool = Pool::created(10);
    for key in 2..2 + count {
        pool.done(flagged(Insert, key, flag::LOADED | flag::DIRTY));
    }
    assert_eq!(pool.estimate(), 0);
    pool
}

#[test]
fn p8_ten_dirty_pages_are_spilled() {
    let mut pool = dirty_pages(10);
    pool.gives_and_keeps_state(
        numbered(CheckSpill, 10),
        "0 10 0 10 2 10 20 30 40 50 60 70 80 90 100 110",
    );
    // Which three the Rust takes is up to its map; it lists them by key.
    let answer = pool.call(numbered(CheckSpill, 3));
    let handles = answer
        .strip_prefix("0 3 0 10 2 3 ")
        .expect("three are selected");
    let handles: Vec<u32> = handles.split(' ').map(|n| n.parse().unwrap()).collect();
    assert!(handles.is_sorted_by(|one, next| one < next), "{answer}");
    assert!(handles
        .iter()
        .all(|n| (20..=110).contains(n) && n % 10 == 0));
}

#[test]
fn p9_nine_dirty_pages_need_no_spill() {
    let mut pool = dirty_pages(9);
    pool.gives_and_keeps_state(numbered(CheckSpill, 3), "18 0 0 9 2 0");
}

#[test]
fn capacity_0_is_full_without_a_sweep() {
    let mut pool = Pool::created(0);
    pool.gives(insert(5), "8 0 0 0 - 0");
    pool.gives(paged(ForceInsert, 5), "0 0 0 1 5 0");
    pool.gives(insert(6), "8 0 0 1 5 0");
    pool.gives(paged(ForceUpsert, 6), "0 0 0 2 5 0");
    assert_eq!(pool.ring(), [(5, 0), (6, 0)]);
}

#[test]
fn an_unloaded_dirty_key_refuses_insertion() {
    let mut pool = Pool::created(3);
    pool.done(flagged(Insert, 5, flag::DIRTY));
    for operation in [Insert, ForceInsert, ForceUpsert] {
        let other_page = Record {
            handle: 51,
            ..paged(operation, 5)
        };
        pool.gives_and_keeps_state(other_page, "6 5 0 1 5 0");
    }
}
