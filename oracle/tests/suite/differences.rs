//! The traces of docs/DIFFERENCES.md: each gives the answers that stand there.

use crate::document::{document_has, records};
use crate::pool::Pool;
use oracle::compare::{compare, Form};
use oracle::driver::{Driver, WalkOrder};
use oracle::record::{flag, PageRecord, Record};
use oracle::storage::page_cache::{CacheError, PageCache, PageCacheKey, SpillResult};
use oracle::storage::pager::{Page, PageRef};
use oracle::sync::Arc;

const DIRTY: u8 = flag::LOADED | flag::DIRTY;

/// The document has the trace, and behind it the line of the last call, which the
/// comparison takes, with this state. The Rust has an answer too: the same one, or
/// where the order of its map decides one that some order gives.
#[track_caller]
fn gives(trace: &str, line: &str, state: &str) {
    gives_behind(trace, &records(trace), line, state);
}

/// As `gives`, of words in the document that are not a whole trace.
#[track_caller]
fn gives_behind(words: &str, records: &[Record], line: &str, state: &str) {
    document_has(words, &[line]);
    comes_to(records, line, state);
    let rusts = rusts_line(records);
    assert!(!rusts.starts_with('?'), "the Rust's line is {rusts}");
}

/// As `gives`, and the Rust's line is another one, which stands behind the first.
/// Where the order of its map decides, another map may give the first.
#[track_caller]
fn parts(trace: &str, line: &str, rusts: &str, state: &str) {
    parts_behind(trace, &records(trace), line, rusts, state);
}

/// As `parts`, of words in the document that are not a whole trace.
#[track_caller]
fn parts_behind(words: &str, records: &[Record], line: &str, rusts: &str, state: &str) {
    document_has(words, &[line, rusts]);
    comes_to(records, line, state);
    let own = rusts_line(records);
    if own != line || order_does_not_matter(records) {
        assert_eq!(own, rusts, "the Rust's line");
    }
}

/// The comparison takes this as the last record's answer and state. The answers
/// before it are the Rust's own.
#[track_caller]
fn comes_to(records: &[Record], answer: &str, state: &str) {
    let (_, earlier) = records.split_last().expect("there is a record");
    let last = format!("{answer}\n{state}\n");
    taken(records, &(rusts_output(earlier) + &last));
}

/// Answers and states of records that begin with a creation.
fn rusts_output(records: &[Record]) -> String {
    let mut driver = Driver::new(WalkOrder::ByKey);
    let lines = records.iter().map(|record| {
        let line = driver.apply(record);
        let state = driver.state().expect("it begins with a creation");
        format!("{line}\n{state}\n")
    });
    lines.collect()
}

/// The comparison takes this for what the proved program has to write.
#[track_caller]
fn taken(records: &[Record], output: &str) {
    let trace: Vec<u8> = records.iter().flat_map(Record::to_bytes).collect();
    let compared = compare(
        &mut trace.as_slice(),
        &mut output.as_bytes(),
        Form::AnswersAndStates,
    );
    let summary = compared.unwrap_or_else(|failure| panic!("{failure}"));
    assert_eq!(summary.passed_over, 0);
}

/// What the oracle writes for the last record.
fn rusts_line(records: &[Record]) -> String {
    let mut driver = Driver::new(WalkOrder::ByKey);
    let lines = records.iter().map(|record| driver.apply(record));
    lines.last().expect("there is a record").to_string()
}

fn order_does_not_matter(records: &[Record]) -> bool {
    let mut driver = Driver::new(WalkOrder::ByKey);
    let (last, earlier) = records.split_last().expect("there is a record");
    for record in earlier {
        driver.apply(record);
    }
    driver.is_exact(last)
}

#[test]
fn added() {
    gives(
        "create 1; insert 5; write_record 5 dirty; insert 6",
        "8 0 4 1 5 0",
        "- 1 1 1 1 5:50:0:0",
    );
    parts(
        "create 2; insert 5; insert 6 handle=50",
        "12 0 0 1 5 0",
        "? handle taken",
        "- 2 1 1 1 5:50:0:0",
    );
    gives("create 1; evict_one", "14 0 0 0 - 0", "- 1 1 0 0");
    parts_behind(
        "| Code 1 | get 5",
        &records("get 5"),
        "1 0 0 0 - 0",
        "? no cache",
        "- no cache",
    );
    parts(
        "create 2; insert 5 flags=32",
        "2 0 0 0 - 0",
        "? flags",
        "- 2 1 0 0",
    );
    parts("create 257", "15 0 0 0 - 0", "? capacity", "- no cache");
    let operation_18 = Record {
        operation: 18,
        ..Record::default()
    };
    parts_behind(
        "a record with operation 18",
        &[operation_18],
        "17 0 0 0 - 0",
        "? record",
        "- no cache",
    );
    gives(
        "create 1; insert 5; delete 5",
        "0 0 0 0 - 1 50",
        "- 1 1 0 0",
    );
    gives(
        "create 1; insert 5; force_upsert 5 handle=51",
        "0 50 0 1 5 0",
        "- 1 1 1 1 5:51:1:0",
    );
    gives(
        "create 1; insert 5; insert 5; insert 6",
        "0 0 1 1 6 1 50",
        "- 1 1 1 1 6:60:0:0",
    );
}

#[test]
fn added_for_holders() {
    gives(
        "create 1; insert 5; get 5; release 5; insert 6",
        "0 0 1 1 6 1 50",
        "- 1 1 1 1 6:60:0:0",
    );
    parts(
        "create 1; insert 5 holders=65535; get 5",
        "20 0 0 1 5 0",
        "? holders",
        "- 1 1 1 1 5:50:0:65535",
    );
    parts(
        "create 1; insert 5; release 5",
        "20 0 0 1 5 0",
        "? holders",
        "- 1 1 1 1 5:50:0:0",
    );
}

#[test]
fn no_slot_is_free() {
    let insertions = (2..=258).map(|key| format!("; force_insert {key}"));
    let records = records(&format!("create 0{}", insertions.collect::<String>()));
    let mut pool = Pool::before_creation();
    for record in &records {
        pool.call(*record);
    }
    parts_behind(
        "create 0; force_insert 2, 3 and so on to 258",
        &records,
        "13 0 0 256 2 0",
        "? slots",
        &pool.state().to_string(),
    );
}

#[test]
fn changed() {
    parts(
        "create 2; insert 3; insert 4 locked; truncate 2",
        "5 4 0 1 4 1 30",
        "5 4 0 2 3 0",
        "- 2 1 1 1 4:40:0:0",
    );
    parts(
        "create 2; insert 3 tagged frame=5; insert 4 locked tagged frame=5; remove_frames 4",
        "5 4 0 1 4 1 30",
        "5 4 0 2 3 0",
        "- 2 1 1 1 4:40:0:0",
    );
    parts(
        "create 2; insert 3 dirty; insert 4 dirty; clear",
        "6 3 0 2 3 0",
        "6 4 0 2 3 0",
        "- 2 1 0 2 3:30:0:0 4:40:0:0",
    );
    parts(
        "create 1; force_insert 3 dirty; force_insert 4 dirty; check_spill 1",
        "0 1 0 2 3 1 30",
        "0 1 0 2 3 1 40",
        "- 1 1 0 2 3:30:0:0 4:40:0:0",
    );
    parts(
        "create 2; insert 5; insert 5 handle=51",
        "11 0 0 1 5 0",
        "? other page",
        "- 2 1 1 1 5:50:0:0",
    );
}

#[test]
fn changed_for_holders() {
    gives(
        "create 1; insert 5; get 5; insert 6",
        "8 0 4 1 5 0",
        "- 1 1 1 1 5:50:1:1",
    );
    gives(
        "create 1; insert 5; write_record 5 holders=1; insert 6",
        "8 0 4 1 5 0",
        "- 1 1 1 1 5:50:0:1",
    );
    gives(
        "create 1; insert 5; get 5; write_record 5; insert 6",
        "0 0 1 1 6 1 50",
        "- 1 1 1 1 6:60:0:0",
    );
    parts(
        "create 1; insert 5; get 5; force_upsert 5 handle=51; release 5",
        "20 0 0 1 5 0",
        "? holders",
        "- 1 1 1 1 5:51:2:0",
    );
}

fn rusts_page(key: u32, flags: u8) -> (PageCacheKey, PageRef) {
    let record = PageRecord {
        flags,
        ..PageRecord::default()
    };
    let page = Arc::new(Page::new(key, key * 10, &record));
    (PageCacheKey::new(key as usize), page)
}

#[test]
fn a_selection_pins_nothing() {
    let trace =
        "create 1; force_insert 3 dirty; force_insert 4 dirty; check_spill 1; check_spill 1";
    let line = "0 1 0 2 3 1 30";
    document_has(trace, &[line]);
    let twice = records(trace);
    let selected = format!("{line}\n- 1 1 0 2 3:30:0:0 4:40:0:0\n");
    taken(&twice, &(rusts_output(&twice[..3]) + &selected + &selected));
    assert_eq!(rusts_line(&twice), rusts_line(&twice[..4]));
}

#[test]
fn while_a_clone_lives_its_page_stays() {
    for peeks in [false, true] {
        let mut cache = PageCache::new(1);
        let (five, page) = rusts_page(5, flag::LOADED);
        cache.insert(five, page).unwrap();
        let clone = if peeks {
            cache.peek(&five, false)
        } else {
            cache.get(&five).unwrap()
        };
        let (six, page) = rusts_page(6, flag::LOADED);
        assert_eq!(cache.insert(six, page.clone()), Err(CacheError::Full));
        assert!(cache.contains_key(&five));
        drop(clone);
        assert_eq!(cache.insert(six, page), Ok(()));
        assert!(!cache.contains_key(&five));
    }
}

#[test]
fn a_clone_counts_again_when_its_page_is_inserted_again() {
    let mut cache = PageCache::new(1);
    let (five, page) = rusts_page(5, flag::LOADED);
    cache.insert(five, page).unwrap();
    let clone = cache.get(&five).unwrap().expect("it is there");
    cache.delete(five).unwrap();
    cache.insert(five, clone.clone()).unwrap();
    let (six, page) = rusts_page(6, flag::LOADED);
    assert_eq!(cache.insert(six, page.clone()), Err(CacheError::Full));
    drop(clone);
    assert_eq!(cache.insert(six, page), Ok(()));
}

#[test]
fn while_guards_live_the_other_page_is_selected() {
    let mut cache = PageCache::new(1);
    for (key, page) in [rusts_page(3, DIRTY), rusts_page(4, DIRTY)] {
        cache.force_insert_page(key, page).unwrap();
    }
    let select = || match cache.check_spill(1) {
        SpillResult::PagesToSpill(guards) => guards,
        other => panic!("{other:?}"),
    };
    let first = select();
    let second = select();
    let mut keys = [first[0].get().id(), second[0].get().id()];
    keys.sort_unstable();
    assert_eq!(keys, [3, 4]);
}

#[test]
fn the_ring_and_the_sweeps() {
    gives(
        "create 3; insert 5; insert 6; insert 7",
        "0 0 0 3 5 0",
        "- 3 1 3 3 5:50:0:0 7:70:0:0 6:60:0:0",
    );
    gives_behind(
        "Then insert 8",
        &records("create 3; insert 5; insert 6; insert 7; insert 8"),
        "0 0 0 3 7 1 50",
        "- 3 1 3 3 7:70:0:0 8:80:0:0 6:60:0:0",
    );
    gives_behind(
        "Then insert 9",
        &records("create 3; insert 5; insert 6; insert 7; insert 8; insert 9"),
        "0 0 0 3 8 1 70",
        "- 3 1 3 3 8:80:0:0 9:90:0:0 6:60:0:0",
    );
    gives(
        "create 2; insert 5; insert 6; get 5",
        "0 50 0 2 5 0",
        "- 2 1 2 2 5:50:1:1 6:60:0:0",
    );
    gives(
        "create 1; insert 5; get 5; release 5; get 5; release 5; evict_one",
        "0 0 2 0 - 1 50",
        "- 1 1 0 0",
    );
    gives(
        "create 1; insert 5; peek 5; release 5; evict_one",
        "0 0 0 0 - 1 50",
        "- 1 1 0 0",
    );
    gives(
        "create 1; insert 1; insert 1; insert 5",
        "8 0 4 1 1 0",
        "- 1 1 0 1 1:10:1:0",
    );
    gives(
        "create 1; insert 5 dirty spilled; insert 6",
        "0 0 0 1 6 1 50",
        "- 1 1 1 1 6:60:0:0",
    );
    gives(
        "create 1; insert 1; insert 5",
        "8 0 4 1 1 0",
        "- 1 1 0 1 1:10:0:0",
    );
    gives(
        "create 0; force_insert 5",
        "0 0 0 1 5 0",
        "- 0 1 1 1 5:50:0:0",
    );
    gives(
        "create 0; force_insert 5; insert 6",
        "8 0 0 1 5 0",
        "- 0 1 1 1 5:50:0:0",
    );
}

#[test]
fn insertion_and_lookup() {
    gives(
        "create 1; force_insert 3 dirty; force_insert 4 dirty; insert 5",
        "8 0 8 2 3 0",
        "- 1 1 0 2 3:30:0:0 4:40:0:0",
    );
    gives(
        "create 0; force_insert 5; force_insert 6",
        "0 0 0 2 5 0",
        "- 0 1 2 2 5:50:0:0 6:60:0:0",
    );
    gives(
        "create 1; insert 5 flags=4; force_upsert 5 handle=51",
        "6 5 0 1 5 0",
        "- 1 1 0 1 5:50:0:0",
    );
    gives(
        "create 1; insert 1 flags=0; get 1",
        "4 0 0 0 - 1 10",
        "- 1 1 0 0",
    );
    gives(
        "create 1; insert 5 flags=12; get 5",
        "6 5 0 1 5 0",
        "- 1 1 1 1 5:50:0:0",
    );
    gives(
        "create 1; insert 5 flags=0; peek 5",
        "0 50 0 1 5 0",
        "- 1 1 1 1 5:50:0:1",
    );
}

#[test]
fn resize_truncation_frame_removal_clear() {
    gives(
        "create 0; force_insert 5; force_insert 6; resize 1",
        "0 0 0 1 6 1 50",
        "- 1 1 1 1 6:60:0:0",
    );
    gives(
        "create 0; force_insert 3 dirty; force_insert 4 dirty; resize 1",
        "10 0 8 2 3 0",
        "- 0 1 0 2 3:30:0:0 4:40:0:0",
    );
    gives(
        "create 2; insert 4 locked; insert 5; truncate 2",
        "5 4 0 2 4 0",
        "- 2 1 2 2 4:40:0:0 5:50:0:0",
    );
    gives(
        "create 2; insert 4 locked tagged frame=5; insert 5 tagged frame=5; remove_frames 4",
        "5 4 0 2 4 0",
        "- 2 1 2 2 4:40:0:0 5:50:0:0",
    );
    gives(
        "create 1; insert 5 dirty; clear dirty",
        "0 0 0 0 - 1 50",
        "- 1 1 0 0",
    );
}

#[test]
fn the_estimate() {
    gives(
        "create 1; insert 5 locked; insert 6",
        "8 0 4 1 5 0",
        "- 1 1 1 1 5:50:0:0",
    );
    comes_to(
        &records("create 1; insert 5 dirty; write_record 5 loaded"),
        "0 0 0 1 5 0",
        "- 1 1 0 1 5:50:0:0",
    );
    gives(
        "create 1; insert 5 dirty; write_record 5 loaded; insert 6",
        "0 0 0 1 6 1 50",
        "- 1 1 1 1 6:60:0:0",
    );
    gives(
        "create 1; force_insert 3 dirty; force_insert 4 dirty; write_record 3 loaded; check_spill 1",
        "18 0 0 2 3 0",
        "- 1 1 0 2 3:30:0:0 4:40:0:0",
    );
    gives(
        "create 2; insert 5; insert 6 dirty; notify_dirty 6",
        "0 0 0 2 5 0",
        "- 2 1 0 2 5:50:0:0 6:60:0:0",
    );
    gives(
        "create 1; insert 5; notify_spilled 5",
        "0 0 0 1 5 0",
        "- 1 1 2 1 5:50:0:0",
    );
    gives(
        "create 1; insert 5; notify_dirty 6",
        "0 0 0 1 5 0",
        "- 1 1 1 1 5:50:0:0",
    );
}

#[test]
fn spilling() {
    gives(
        "create 1; force_insert 3 dirty; force_insert 4 dirty; set_spill off; check_spill 1",
        "18 0 0 2 3 0",
        "- 1 0 0 2 3:30:0:0 4:40:0:0",
    );
    gives(
        "create 2; insert 5; insert 6; check_spill 1",
        "18 0 0 2 5 0",
        "- 2 1 2 2 5:50:0:0 6:60:0:0",
    );
    gives(
        "create 1; insert 5 dirty; check_spill 1",
        "18 0 0 1 5 0",
        "- 1 1 0 1 5:50:0:0",
    );
    gives(
        "create 0; force_insert 3 dirty; check_spill 1",
        "18 0 0 1 3 0",
        "- 0 1 0 1 3:30:0:0",
    );
    gives(
        "create 1; force_insert 3 dirty; force_insert 4 dirty; check_spill 0",
        "19 0 0 2 3 0",
        "- 1 1 0 2 3:30:0:0 4:40:0:0",
    );
    gives(
        "create 1; force_insert 3 locked dirty; force_insert 4 locked dirty; force_insert 5; check_spill 1",
        "19 0 0 3 3 0",
        "- 1 1 1 3 3:30:0:0 5:50:0:0 4:40:0:0",
    );
    comes_to(
        &records("create 1; force_insert 3 locked dirty; force_insert 4 locked dirty; force_insert 5; evict_one"),
        "0 0 1 2 4 1 50",
        "- 1 1 0 2 4:40:0:0 3:30:0:0",
    );
    gives(
        "create 1; force_insert 3 dirty cells=1; force_insert 4 dirty; check_spill 2",
        "0 1 0 2 3 1 40",
        "- 1 1 0 2 3:30:0:0 4:40:0:0",
    );
}

#[test]
fn for_tests_and_verification() {
    gives(
        "create 1; insert 1; delete 1",
        "0 0 0 0 - 1 10",
        "- 1 1 0 0",
    );
    gives(
        "create 1; insert 1; evict_one",
        "8 0 4 1 1 0",
        "- 1 1 0 1 1:10:0:0",
    );
}

#[test]
fn another_record_is_not_compared() {
    let trace = "create 1; insert 5; force_upsert 5 handle=50 dirty";
    document_has(trace, &[]);
    assert_eq!(rusts_line(&records(trace)), "? other record");
}
