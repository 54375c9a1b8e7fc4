//! What the generated traces reach.

use oracle::answer::{code, Mark, Outcome};
use oracle::driver::{Driver, WalkOrder};
use oracle::generate::{exhaustive, random};
use oracle::record::{flag, Operation, Operation::*, Record};
use std::collections::{BTreeMap, BTreeSet};

fn random_trace(seed: u64, records: usize, marks_percent: u32, exact: bool) -> Vec<Record> {
    let plan = random::Plan {
        seed,
        marks_percent,
        exact,
    };
    let mut trace = random::Trace::new(plan);
    (0..records).map(|_| trace.next_record()).collect()
}

fn sequences(length: u64, capacity: u64, exact: bool) -> Vec<Vec<Record>> {
    let plan = exhaustive::Plan {
        length,
        capacity,
        exact,
    };
    let mut found = Vec::new();
    let end = exhaustive::for_each_sequence(&plan, |sequence| {
        found.push(sequence.to_vec());
        Ok::<(), ()>(())
    });
    assert_eq!(end, Ok(()));
    found
}

/// Every answer that the Rust can give to an operation.
pub fn possible_codes(operation: Operation) -> &'static [u8] {
    match operation {
        Create | NotifyDirty | NotifySpilled | SetSpill => &[0],
        Insert => &[0, 6, 7, 8, 9],
        ForceInsert => &[0, 6, 7, 9],
        ForceUpsert => &[0, 6, 7],
        Get => &[0, 4, 6, 7],
        Peek | WriteRecord | Release => &[0, 4],
        Delete | Truncate => &[0, 5, 6, 7],
        Resize => &[0, 10],
        RemoveFrames => &[0, 5, 7],
        Clear => &[0, 6],
        CheckSpill => &[0, 18, 19],
        EvictOne => &[0, 8, 14],
    }
}

/// Every mark that a generated call of an operation can get.
pub fn possible_marks(operation: Operation) -> &'static [Mark] {
    use Mark::{Capacity, Flags, HandleTaken, Holders, NoCache, OtherPage, Slots};
    match operation {
        Create => &[Mark::Record, Capacity],
        Insert => &[Mark::Record, NoCache, Flags, HandleTaken, OtherPage],
        ForceInsert => &[Mark::Record, NoCache, Flags, HandleTaken, OtherPage, Slots],
        ForceUpsert => &[Mark::Record, NoCache, Flags, HandleTaken, Slots],
        Resize => &[Mark::Record, NoCache, Capacity],
        WriteRecord => &[Mark::Record, NoCache, Flags],
        Get | Peek | Release => &[Mark::Record, NoCache, Holders],
        _ => &[Mark::Record, NoCache],
    }
}

#[test]
fn every_answer_and_every_mark_arises_and_no_other() {
    let mut codes = BTreeMap::<Operation, BTreeSet<u8>>::new();
    let mut marks = BTreeMap::<Operation, BTreeSet<Mark>>::new();
    let mut driver = Driver::new(WalkOrder::ByKey);
    for record in random_trace(1, 200_000, 5, false) {
        let outcome = driver.apply(&record);
        let Some(operation) = Operation::from_number(record.operation) else {
            assert_eq!(outcome, Outcome::Mark(Mark::Record));
            continue;
        };
        match outcome {
            Outcome::Answer(answer) => codes.entry(operation).or_default().insert(answer.code),
            Outcome::Mark(mark) => marks.entry(operation).or_default().insert(mark),
        };
    }
    for operation in Operation::ALL {
        let expected = possible_codes(operation).iter().copied().collect();
        assert_eq!(codes[&operation], expected, "{operation:?}");
        let expected = possible_marks(operation).iter().copied().collect();
        assert_eq!(marks[&operation], expected, "{operation:?}");
    }
}

/// States of the pool that a trace was in.
#[derive(Default)]
struct Reached {
    capacities: BTreeSet<usize>,
    keys: BTreeSet<u32>,
    handles: BTreeSet<u32>,
    flags: BTreeSet<u8>,
    pins: BTreeSet<u16>,
    holders: BTreeSet<u16>,
    overflow_cells: BTreeSet<u8>,
    frames: BTreeSet<u64>,
    uses: BTreeSet<u8>,
    full_pool: bool,
    over_capacity: bool,
    spill_off: bool,
    estimate_below_pages_that_count: bool,
    estimate_above_pages_that_count: bool,
}

impl Reached {
    fn note(&mut self, driver: &Driver) {
        let state = driver.state().expect("the trace begins with a creation");
        let mut counted = 0;
        for entry in &state.ring {
            let (handle, page) = driver.stored(entry.key).expect("it is in the ring");
            assert_eq!(handle, entry.handle);
            self.keys.insert(entry.key);
            self.handles.insert(handle);
            self.flags.insert(page.flags);
            self.pins.insert(page.pins);
            self.holders.insert(page.holders);
            self.overflow_cells.insert(page.overflow_cells);
            self.frames.insert(page.frame);
            self.uses.insert(entry.uses);
            let dirty_only = page.flags & (flag::DIRTY | flag::SPILLED) == flag::DIRTY;
            counted += usize::from(entry.key != 1 && !dirty_only);
        }
        self.capacities.insert(state.capacity);
        self.full_pool |= state.ring.len() == 256;
        self.over_capacity |= state.ring.len() > state.capacity;
        self.spill_off |= !state.spill_enabled;
        self.estimate_below_pages_that_count |= state.estimate < counted;
        self.estimate_above_pages_that_count |= state.estimate > counted;
    }
}

/// Fails unless all of these are among those.
#[track_caller]
fn has<T: Ord + std::fmt::Debug>(found: &BTreeSet<T>, wanted: impl IntoIterator<Item = T>) {
    for value in wanted {
        assert!(found.contains(&value), "{value:?} is missing");
    }
}

#[test]
fn every_kind_of_page_and_pool_arises() {
    let mut reached = Reached::default();
    let mut driver = Driver::new(WalkOrder::ByKey);
    for record in random_trace(1, 200_000, 0, false) {
        driver.apply(&record);
        reached.note(&driver);
    }
    has(&reached.capacities, [0, 1, 2, 3, 10, 255, 256]);
    assert!(reached.capacities.len() > 100);
    has(&reached.keys, [0, 1, u32::MAX]);
    has(&reached.handles, [0, u32::MAX]);
    has(&reached.flags, 0..=flag::ALL);
    has(&reached.pins, [0, 1, u16::MAX]);
    has(&reached.holders, [0, 1, 2, 3, u16::MAX - 1, u16::MAX]);
    has(&reached.overflow_cells, [0, 1, 255]);
    has(&reached.frames, [0, 1, u64::MAX]);
    has(&reached.uses, 0..=3);
    assert!(reached.full_pool);
    assert!(reached.over_capacity);
    assert!(reached.spill_off);
    assert!(reached.estimate_below_pages_that_count);
    assert!(reached.estimate_above_pages_that_count);
}

/// What was asked of a page's holders: by which call, whether the page was stale, how
/// many there were, and the code.
type Asked = (Operation, bool, u16, u8);

/// All of that in a trace, for pages that were there.
fn asked_of_holders(trace: &[Record]) -> BTreeSet<Asked> {
    let mut asked = BTreeSet::new();
    let mut driver = Driver::new(WalkOrder::ByKey);
    for record in trace {
        let page = driver.stored(record.key);
        let code = match driver.apply(record) {
            Outcome::Answer(answer) => answer.code,
            Outcome::Mark(Mark::Holders) => code::HOLDER_LIMIT,
            Outcome::Mark(_) => continue,
        };
        let operation = record.good_operation().expect("it has no other mark");
        if let (Get | Peek | Release, Some((_, page))) = (operation, page) {
            asked.insert((operation, page.is_stale(), page.holders, code));
        }
    }
    asked
}

#[test]
fn holders_meet_their_limits() {
    let most = u16::MAX;
    let in_domain = [
        (Get, false, most - 1, 0),
        (Get, true, most, 4),
        (Get, true, most, 6),
        (Get, true, most, 7),
        (Peek, false, most - 1, 0),
        (Peek, true, most - 1, 0),
        (Release, false, most, 0),
        (Release, true, most, 0),
        (Release, false, 1, 0),
        (Release, true, 1, 0),
    ];
    let with_marks = [
        (Get, false, most, 20),
        (Peek, false, most, 20),
        (Peek, true, most, 20),
        (Release, false, 0, 20),
        (Release, true, 0, 20),
    ];
    let asked = asked_of_holders(&random_trace(1, 100_000, 5, false));
    has(&asked, in_domain.into_iter().chain(with_marks));
    let asked = asked_of_holders(&random_trace(1, 100_000, 0, true));
    has(&asked, in_domain);
}

#[test]
fn hits_are_released_so_that_pages_may_go() {
    let mut driver = Driver::new(WalkOrder::ByKey);
    let (mut pages, mut held) = (0, 0);
    // By the number of times that the sweep passed all pages.
    let mut gone = [0; 4];
    let mut full = 0;
    for record in random_trace(1, 100_000, 0, true) {
        let Outcome::Answer(answer) = driver.apply(&record) else {
            panic!("a mark for {record:?}");
        };
        match (record.good_operation(), answer.code) {
            (Some(EvictOne), 0) => gone[answer.passed as usize / (answer.held + 1)] += 1,
            (Some(EvictOne), 8) => full += 1,
            _ => {}
        }
        let ring = driver.state().expect("it begins with a creation").ring;
        pages += ring.len();
        held += ring.iter().filter(|entry| entry.holders > 0).count();
    }
    assert!(
        (15..30).contains(&(100 * held / pages)),
        "{held} of {pages}"
    );
    let least = [1_500, 80, 20, 15];
    assert!(
        gone.iter().zip(&least).all(|(n, least)| n > least),
        "{gone:?}"
    );
    assert!((1_000..2_500).contains(&full), "{full}");
}

#[test]
fn limits_are_of_every_size() {
    let trace = random_trace(1, 200_000, 5, false);
    let numbers = |operation: Operation| -> BTreeSet<u64> {
        let records = trace.iter().filter(|r| r.operation == operation.number());
        records.map(|record| record.number).collect()
    };
    has(&numbers(Create), [0, 1, 2, 256, 257, u64::MAX]);
    has(&numbers(Resize), [0, 1, 2, 256, 257, u64::MAX]);
    let last_key = u64::from(u32::MAX);
    has(&numbers(Truncate), [0, 1, last_key - 1, last_key]);
    has(&numbers(Truncate), [last_key + 1, u64::MAX]);
    has(&numbers(RemoveFrames), [0, 1, u64::MAX - 1, u64::MAX]);
    has(&numbers(CheckSpill), [0, 1, 2, 256, 257, u64::MAX]);
}

#[test]
fn unused_fields_hold_something_now_and_then() {
    let trace = random_trace(1, 20_000, 0, false);
    for operation in [Get, Peek, Delete, Resize, Truncate, Clear, EvictOne] {
        let mut records = trace.iter().filter(|r| r.operation == operation.number());
        assert!(
            records.any(|record| record.flags > flag::ALL),
            "{operation:?}"
        );
    }
}

#[test]
fn without_marks_the_rust_answers_everything() {
    for (seed, exact) in [(2, false), (3, true)] {
        let mut driver = Driver::new(WalkOrder::ByKey);
        for record in random_trace(seed, 50_000, 0, exact) {
            assert_eq!(driver.mark(&record), None, "{record:?}");
            assert!(!exact || driver.is_exact(&record), "{record:?}");
            driver.apply(&record);
        }
    }
}

#[test]
fn exact_answers_do_not_depend_on_the_walk() {
    let mut driver = Driver::new(WalkOrder::ByKey);
    for record in random_trace(4, 50_000, 0, true) {
        let spillable = |driver: &Driver| match driver.state() {
            Some(state) => count_spillable(driver, &state.ring),
            None => 0,
        };
        let fit = spillable(&driver);
        let Outcome::Answer(answer) = driver.apply(&record) else {
            panic!("a mark for {record:?}");
        };
        let operation = record.good_operation().unwrap();
        if operation.removes_in_a_walk() {
            assert_eq!(answer.code, 0, "{record:?}");
        }
        if operation == CheckSpill && answer.code == 0 {
            assert_eq!(answer.list.len(), fit, "{record:?}");
        }
    }
}

/// Document 01's rule 14, on the records as the driver knows them.
fn count_spillable(
    driver: &Driver,
    ring: &[oracle::storage::page_cache::inspect::RingEntry],
) -> usize {
    let spillable = |key| {
        let (_, page) = driver.stored(key).expect("it is in the ring");
        let among = flag::DIRTY | flag::SPILLED | flag::LOCKED;
        page.flags & among == flag::DIRTY
            && (page.pins, page.holders, page.overflow_cells) == (0, 0, 0)
            && key != 1
    };
    ring.iter().filter(|entry| spillable(entry.key)).count()
}

#[test]
fn one_seed_gives_one_trace() {
    let trace = random_trace(5, 5_000, 10, false);
    assert_eq!(trace, random_trace(5, 5_000, 10, false));
    assert_ne!(trace, random_trace(6, 5_000, 10, false));
}

#[test]
fn the_share_of_marks_is_the_one_asked_for() {
    for percent in [1, 20, 90] {
        let mut driver = Driver::new(WalkOrder::ByKey);
        let trace = random_trace(7, 20_000, percent, false);
        let marks = trace
            .iter()
            .filter(|record| matches!(driver.apply(record), Outcome::Mark(_)))
            .count();
        let wanted = 200 * percent as usize;
        assert!(marks.abs_diff(wanted) < 200, "{marks} for {percent}");
    }
}

#[test]
fn all_sequences_of_three_calls_are_there() {
    let letters = exhaustive::alphabet();
    let creation = Record {
        number: 2,
        ..Record::new(Create)
    };
    let mut all = vec![vec![creation]];
    for _ in 0..3 {
        let longer = |sequence: &Vec<Record>, letter| [sequence.as_slice(), &[letter]].concat();
        all = all
            .iter()
            .flat_map(|sequence| letters.iter().map(move |&letter| longer(sequence, letter)))
            .collect();
    }
    for exact in [false, true] {
        let wanted = all.iter().filter(|sequence| all_wanted(sequence, exact));
        assert!(sequences(3, 2, exact).iter().eq(wanted), "exact: {exact}");
    }
}

fn all_wanted(sequence: &[Record], exact: bool) -> bool {
    let mut driver = Driver::new(WalkOrder::ByKey);
    sequence.iter().all(|record| {
        let inexact = exact && !driver.is_exact(record);
        match driver.apply(record) {
            Outcome::Answer(_) => !inexact,
            Outcome::Mark(mark) => !exact && mark != Mark::OtherRecord,
        }
    })
}

#[test]
fn the_alphabet_has_every_operation_but_creation_once_each() {
    let letters = exhaustive::alphabet();
    let operations: BTreeSet<u8> = letters.iter().map(|record| record.operation).collect();
    assert!(operations.into_iter().eq(1..Operation::ALL.len() as u8));
    let different: BTreeSet<_> = letters.iter().map(Record::to_bytes).collect();
    assert_eq!(different.len(), letters.len());
}

#[test]
fn short_sequences_reach_every_answer() {
    let mut codes = BTreeSet::new();
    for capacity in [0, 1, 2] {
        for sequence in sequences(3, capacity, false) {
            let mut driver = Driver::new(WalkOrder::ByKey);
            for record in &sequence {
                if let Outcome::Answer(answer) = driver.apply(record) {
                    codes.insert(answer.code);
                }
            }
        }
    }
    assert!(codes.into_iter().eq([0, 4, 5, 6, 7, 8, 9, 10, 14, 18, 19]));
}
