//! The comparison: it takes the right lines and refuses every kind of wrong ones.

use crate::pool::*;
use oracle::compare::{compare, Failure, Form, Summary};
use oracle::driver::WalkOrder;
use oracle::generate::random;
use oracle::record::{flag, Operation::*, Record};
use oracle::replay::replay;

const DIRTY: u8 = flag::LOADED | flag::DIRTY;
const LOCKED: u8 = flag::LOADED | flag::LOCKED;

fn bytes_of(records: &[Record]) -> Vec<u8> {
    records.iter().flat_map(Record::to_bytes).collect()
}

fn compared(records: &[Record], output: &str) -> Result<Summary, Failure> {
    let trace = bytes_of(records);
    compare(
        &mut trace.as_slice(),
        &mut output.as_bytes(),
        Form::AnswersAndStates,
    )
}

/// A trace and the lines that a right program writes for it.
struct Case {
    records: Vec<Record>,
    lines: Vec<&'static str>,
}

impl Case {
    fn output(&self) -> String {
        self.lines.iter().map(|line| format!("{line}\n")).collect()
    }

    #[track_caller]
    fn is_taken(&self) -> Summary {
        compared(&self.records, &self.output()).unwrap_or_else(|failure| panic!("{failure}"))
    }

    /// With another line at this place the record is refused for this reason.
    #[track_caller]
    fn refuses(&self, place: usize, wrong: &str, record: u64, reason: &str) {
        assert_ne!(self.lines[place], wrong, "the line isn't wrong");
        self.is_taken();
        let mut lines = self.lines.clone();
        lines[place] = wrong;
        let output: String = lines.iter().map(|line| format!("{line}\n")).collect();
        match compared(&self.records, &output) {
            Err(Failure::Differs(difference)) => {
                assert_eq!((difference.number, difference.what), (record, reason));
                let message = difference.to_string();
                assert!(message.contains(wrong), "{message}");
                assert!(message.contains(self.lines[place]), "{message}");
            }
            other => panic!("{wrong}: {other:?}"),
        }
    }
}

/// Document 01's example.
fn example() -> Case {
    let page = |key, handle| Record {
        handle,
        ..insert(key)
    };
    Case {
        records: vec![
            create(2),
            page(10, 100),
            page(20, 200),
            lookup(10),
            page(30, 300),
            lookup(20),
        ],
        lines: vec![
            "0 0 0 0 - 0",
            "- 2 1 0 0",
            "0 0 0 1 10 0",
            "- 2 1 1 1 10:100:0:0",
            "0 0 0 2 10 0",
            "- 2 1 2 2 10:100:0:0 20:200:0:0",
            "0 100 0 2 10 0",
            "- 2 1 2 2 10:100:1:1 20:200:0:0",
            "0 0 1 2 10 1 200",
            "- 2 1 2 2 10:100:1:1 30:300:0:0",
            "4 0 0 2 10 0",
            "- 2 1 2 2 10:100:1:1 30:300:0:0",
        ],
    }
}

#[test]
fn right_lines_are_taken() {
    let summary = example().is_taken();
    assert_eq!((summary.records(), summary.exactly), (6, 6));
    assert_eq!(summary.answers[usize::from(Get.number())][4], 1);
    assert_eq!(summary.answers[usize::from(Get.number())][0], 1);
    let text = summary.to_string();
    assert!(text.contains("| get | 0: 1, 4: 1 |"), "{text}");
}

#[test]
fn each_field_of_an_answer_is_held_to_the_rust() {
    let case = example();
    case.refuses(10, "0 0 0 2 10 0", 6, "code");
    case.refuses(6, "0 101 0 2 10 0", 4, "value");
    case.refuses(8, "0 0 2 2 10 1 200", 5, "passed");
    case.refuses(8, "0 0 1 3 10 1 200", 5, "held");
    case.refuses(8, "0 0 1 2 30 1 200", 5, "hand");
    case.refuses(8, "0 0 1 2 - 1 200", 5, "hand");
    case.refuses(8, "0 0 1 2 10 0", 5, "list length");
    case.refuses(8, "0 0 1 2 10 2 200 300", 5, "list length");
    case.refuses(8, "0 0 1 2 10 1 100", 5, "list");
    case.refuses(8, "0 0 1 2 10 1", 5, "list");
    case.refuses(8, "0 0 1 2 10 1 200 300", 5, "list");
    case.refuses(8, "0 0 1 2 10 1 200 ", 5, "list");
    case.refuses(8, "00 0 1 2 10 1 200", 5, "code");
}

#[test]
fn each_part_of_a_state_is_held_to_the_rust() {
    let case = example();
    let refuses = |state, what| case.refuses(9, state, 5, what);
    refuses("- 3 1 2 2 10:100:1:1 30:300:0:0", "state: capacity");
    refuses("- 2 0 2 2 10:100:1:1 30:300:0:0", "state: spill switch");
    refuses("- 2 1 1 2 10:100:1:1 30:300:0:0", "state: estimate");
    refuses("- 2 1 2 1 10:100:1:1 30:300:0:0", "state: held");
    refuses("- 2 1 2 2 30:300:0:0 10:100:1:1", "state: ring");
    refuses("- 2 1 2 2 10:100:1:1", "state: ring");
    refuses("- 2 1 2 2 10:100:1:1 30:300:0:0 5:5:0:0", "state: ring");
    refuses("- 2 1 2 2 10:100:1:1 31:300:0:0", "state: ring");
    refuses("- 2 1 2 2 10:100:1:1 30:301:0:0", "state: handle");
    refuses("- 2 1 2 2 10:100:0:1 30:300:0:0", "state: uses");
    refuses("- 2 1 2 2 10:100:1:0 30:300:0:0", "state: holders");
    refuses("- 2 1 2 2 10:100:1:1 30:300:0:1", "state: holders");
    // Too few parts, and too many.
    refuses("- 2 1 2 2 10:100:1 30:300:0", "state: ring");
    refuses("- 2 1 2 2 10:100:1:1:0 30:300:0:0:0", "state: ring");
    refuses("- no cache", "state: capacity");
}

#[test]
fn lines_that_are_missing_or_too_many_are_refused() {
    let case = example();
    for place in 0..case.lines.len() {
        let mut lines = case.lines.clone();
        lines.remove(place);
        let output: String = lines.iter().map(|line| format!("{line}\n")).collect();
        assert!(compared(&case.records, &output).is_err(), "line {place}");
    }
    let output = case.output();
    let half = &output[..output.rfind("- ").unwrap()];
    assert!(what(compared(&case.records, half)) == "no state line");
    let cut = output.strip_suffix('\n').unwrap();
    assert!(what(compared(&case.records, cut)) == "the line's end");
    for surplus in ["0 0 0 2 10 0\n", "\n", "bad\n", "x"] {
        let longer = format!("{output}{surplus}");
        let refused = compared(&case.records, &longer);
        assert!(matches!(refused, Err(Failure::Surplus(_))), "{surplus}");
    }
    assert!(what(compared(&case.records, "")) == "no answer line");
    assert!(matches!(compared(&[], ""), Err(Failure::EmptyTrace)));
    assert!(matches!(compared(&[], "x\n"), Err(Failure::Surplus(_))));
}

fn what(result: Result<Summary, Failure>) -> &'static str {
    match result {
        Err(Failure::Differs(difference)) => difference.what,
        other => panic!("{other:?}"),
    }
}

#[test]
fn a_short_last_record_has_to_be_answered_bad() {
    let case = example();
    let mut trace = bytes_of(&case.records);
    let mut compared = |bytes: usize, end: &str| {
        trace.resize(32 * case.records.len() + bytes, 0);
        let output = format!("{}{end}", case.output());
        compare(
            &mut trace.as_slice(),
            &mut output.as_bytes(),
            Form::AnswersAndStates,
        )
    };
    for bytes in [1, 31] {
        let summary = compared(bytes, "bad\n").expect("this is right");
        assert!(summary.last_is_short);
        assert_eq!(summary.records(), 6);
        for wrong in ["", "bad", "17 0 0 2 10 0\n"] {
            let refused = compared(bytes, wrong);
            assert!(matches!(refused, Err(Failure::Short { .. })), "{wrong}");
        }
        let refused = compared(bytes, "bad\n- 2 1 2 2 10:100:1:1 30:300:0:0\n");
        assert!(matches!(refused, Err(Failure::Surplus(_))));
    }
    assert!(matches!(compared(0, "bad\n"), Err(Failure::Surplus(_))));
}

#[test]
fn output_without_states_is_taken_only_if_told() {
    let case = example();
    let answers: Vec<_> = case.lines.iter().step_by(2).collect();
    let output: String = answers.iter().map(|line| format!("{line}\n")).collect();
    let trace = bytes_of(&case.records);
    let compared = |form| compare(&mut trace.as_slice(), &mut output.as_bytes(), form);
    assert_eq!(compared(Form::Answers).expect("right").records(), 6);
    assert_eq!(what(compared(Form::AnswersAndStates)), "no state line");
    let wrong = output.replace("0 100 ", "0 101 ");
    let refused = compare(&mut trace.as_slice(), &mut wrong.as_bytes(), Form::Answers);
    assert_eq!(what(refused), "value");
}

/// Each mark that a small pool can get, and the code that has to be answered.
fn marks() -> Case {
    let state = "- 1 1 1 1 5:50:0:0";
    let crowded = "- 1 1 1 1 5:50:0:65535";
    Case {
        records: vec![
            lookup(5),
            create(257),
            create(1),
            insert(5),
            Record {
                tail: 1,
                ..lookup(5)
            },
            numbered(Resize, 257),
            flagged(WriteRecord, 5, 32),
            Record {
                handle: 50,
                ..insert(6)
            },
            Record {
                handle: 51,
                ..insert(5)
            },
            release(5),
            Record {
                holders: u16::MAX,
                ..paged(WriteRecord, 5)
            },
            lookup(5),
            keyed(Peek, 6),
            Record {
                option: 1,
                ..keyed(Peek, 5)
            },
        ],
        lines: vec![
            "1 0 0 0 - 0",
            "- no cache",
            "15 0 0 0 - 0",
            "- no cache",
            "0 0 0 0 - 0",
            "- 1 1 0 0",
            "0 0 0 1 5 0",
            state,
            "17 0 0 1 5 0",
            state,
            "15 0 0 1 5 0",
            state,
            "2 0 0 1 5 0",
            state,
            "12 0 0 1 5 0",
            state,
            "11 0 0 1 5 0",
            state,
            "20 0 0 1 5 0",
            state,
            "0 0 0 1 5 0",
            crowded,
            "20 0 0 1 5 0",
            crowded,
            "4 0 0 1 5 0",
            crowded,
            "20 0 0 1 5 0",
            crowded,
        ],
    }
}

#[test]
fn marks_have_their_codes_and_keep_the_state() {
    let case = marks();
    let summary = case.is_taken();
    assert_eq!((summary.exactly, summary.marks), (4, 10));
    case.refuses(0, "4 0 0 0 - 0", 1, "code");
    case.refuses(2, "16 0 0 0 - 0", 2, "code");
    case.refuses(8, "0 50 0 1 5 0", 5, "code");
    case.refuses(9, "- 1 1 1 1 5:50:1:0", 5, "state: uses");
    case.refuses(10, "10 0 0 1 5 0", 6, "code");
    case.refuses(12, "0 0 0 1 5 0", 7, "code");
    case.refuses(14, "8 0 0 1 5 0", 8, "code");
    case.refuses(16, "9 0 0 1 5 0", 9, "code");
    case.refuses(16, "11 51 0 1 5 0", 9, "value");
    case.refuses(17, "- 1 1 1 1 5:50:1:0", 9, "state: uses");
    case.refuses(18, "0 0 0 1 5 0", 10, "code");
    case.refuses(19, "- 1 1 1 1 5:50:0:65535", 10, "state: holders");
    case.refuses(22, "0 50 0 1 5 0", 12, "code");
    case.refuses(22, "20 50 0 1 5 0", 12, "value");
    case.refuses(23, "- 1 1 1 1 5:50:1:65535", 12, "state: uses");
    case.refuses(23, "- 1 1 1 1 5:50:0:65536", 12, "state: holders");
    case.refuses(24, "20 0 0 1 5 0", 13, "code");
    case.refuses(27, "- 1 1 1 1 5:50:1:65535", 14, "state: uses");
    case.refuses(27, "- 1 1 1 1 5:50:0:0", 14, "state: holders");
}

#[test]
fn a_release_is_told_with_its_key() {
    let records = [create(1), insert(5), lookup(5), release(5)];
    let output = "0 0 0 0 - 0\n- 1 1 0 0\n\
        0 0 0 1 5 0\n- 1 1 1 1 5:50:0:0\n\
        0 50 0 1 5 0\n- 1 1 1 1 5:50:1:1\n\
        0 0 0 1 5 0\n- 1 1 1 1 5:50:1:1\n";
    match compared(&records, output) {
        Err(Failure::Differs(difference)) => {
            assert_eq!(difference.call, "release key 5");
            assert_eq!(difference.what, "state: holders");
            assert_eq!(difference.rusts_state, "- 1 1 1 1 5:50:1:0");
        }
        other => panic!("{other:?}"),
    }
}

/// A pool of 256 held pages, in which no forced insertion finds a slot.
fn full_pool(capacity: u64) -> (Vec<Record>, String) {
    let mut records = vec![create(capacity)];
    records.extend((0..256).map(|key| flagged(ForceInsert, key, DIRTY)));
    let mut output = Vec::new();
    replay(
        &mut bytes_of(&records).as_slice(),
        &mut output,
        WalkOrder::ByKey,
        true,
    )
    .expect("there are records");
    records.push(flagged(ForceInsert, 300, DIRTY));
    (records, String::from_utf8(output).unwrap())
}

#[test]
fn a_pool_without_a_free_slot_tells_the_failed_sweep() {
    for (capacity, passed) in [(0, 0), (9, 1024), (256, 1024)] {
        let (records, output) = full_pool(capacity);
        let state = output.lines().last().unwrap();
        let with = |passed: u64| format!("{output}13 0 {passed} 256 0 0\n{state}\n");
        assert_eq!(compared(&records, &with(passed)).unwrap().marks, 1);
        for wrong in [1024 - passed, passed + 4] {
            assert_eq!(what(compared(&records, &with(wrong))), "passed");
        }
    }
}

/// Truncation above 4 in a pool where 5 may go, 6 is locked, 7 may go and 8 is
/// dirty: by ascending key 5 goes and 6 refuses.
fn truncation() -> Case {
    Case {
        records: vec![
            create(9),
            insert(5),
            flagged(Insert, 6, LOCKED),
            insert(7),
            flagged(Insert, 8, DIRTY),
            numbered(Truncate, 4),
            lookup(7),
        ],
        lines: vec![
            "0 0 0 0 - 0",
            "- 9 1 0 0",
            "0 0 0 1 5 0",
            "- 9 1 1 1 5:50:0:0",
            "0 0 0 2 5 0",
            "- 9 1 2 2 5:50:0:0 6:60:0:0",
            "0 0 0 3 5 0",
            "- 9 1 3 3 5:50:0:0 7:70:0:0 6:60:0:0",
            "0 0 0 4 5 0",
            "- 9 1 3 4 5:50:0:0 8:80:0:0 7:70:0:0 6:60:0:0",
            "5 6 0 3 8 1 50",
            "- 9 1 2 3 8:80:0:0 7:70:0:0 6:60:0:0",
            "0 70 0 3 8 0",
            "- 9 1 2 3 8:80:0:0 7:70:1:1 6:60:0:0",
        ],
    }
}

#[test]
fn a_refused_truncation_is_the_one_by_ascending_key() {
    let case = truncation();
    let summary = case.is_taken();
    assert_eq!((summary.exactly, summary.up_to_key_order), (6, 1));
    // Another order's outcome, and outcomes that no order has.
    case.refuses(10, "6 8 0 3 8 1 50", 6, "code");
    case.refuses(10, "5 7 0 3 8 1 50", 6, "value");
    case.refuses(10, "5 6 0 2 8 2 50 70", 6, "held");
    case.refuses(10, "5 6 0 4 5 0", 6, "held");
    case.refuses(10, "0 0 0 0 - 4 50 60 70 80", 6, "code");
    case.refuses(10, "5 6 0 3 8 1 70", 6, "list");
    case.refuses(
        11,
        "- 9 1 3 3 8:80:0:0 7:70:0:0 6:60:0:0",
        6,
        "state: estimate",
    );
    case.refuses(11, "- 9 1 2 3 7:70:0:0 6:60:0:0 8:80:0:0", 6, "state: ring");
    // The comparison goes on in the pool that the ascending order left.
    case.refuses(12, "4 0 0 3 8 0", 7, "code");
}

/// A pool with the pages 10 to 40, of which 25 is locked, after so many lookups of
/// an absent page; then a truncation, which the Rust's map all but surely walks in
/// another order than by key, and a lookup. Answers the summary.
fn truncated_after(lookups: usize) -> Summary {
    let mut records = vec![create(50)];
    records.extend((10..=40).map(|key| match key {
        25 => flagged(Insert, key, LOCKED),
        _ => insert(key),
    }));
    records.extend(vec![lookup(9); lookups]);
    let mut output = Vec::new();
    let input = bytes_of(&records);
    replay(&mut input.as_slice(), &mut output, WalkOrder::ByKey, true).unwrap();
    let mut output = String::from_utf8(output).unwrap();
    let handles: String = (10..25).map(|key| format!(" {key}0")).collect();
    let entry = |key: u32, uses, holders| format!(" {key}:{key}0:{uses}:{holders}");
    let ring: String = (25..=40).rev().map(|key| entry(key, 0, 0)).collect();
    let found = ring.replace(&entry(30, 0, 0), &entry(30, 1, 1));
    output += &format!("5 25 0 16 40 15{handles}\n- 50 1 16 16{ring}\n");
    output += &format!("0 300 0 16 40 0\n- 50 1 16 16{found}\n");
    records.extend([numbered(Truncate, 9), lookup(30)]);
    compared(&records, &output).unwrap_or_else(|failure| panic!("{failure}"))
}

#[test]
fn the_rust_is_brought_to_the_pool_that_ascending_order_leaves() {
    let summary = truncated_after(0);
    assert_eq!((summary.up_to_key_order, summary.passed_over), (1, 0));
    // Not after very many calls.
    let summary = truncated_after(20_001);
    assert_eq!((summary.up_to_key_order, summary.passed_over), (1, 1));
}

#[test]
fn a_refused_frame_removal_is_the_one_by_ascending_key() {
    let tagged = |key, flags| Record {
        number: 9,
        ..flagged(Insert, key, flags | flag::WAL_TAG)
    };
    let pinned = Record {
        pins: 1,
        ..tagged(7, flag::LOADED)
    };
    let case = Case {
        records: vec![
            create(9),
            tagged(5, DIRTY),
            tagged(1, flag::LOADED),
            pinned,
            tagged(8, flag::LOADED),
            numbered(RemoveFrames, 8),
        ],
        lines: vec![
            "0 0 0 0 - 0",
            "- 9 1 0 0",
            "0 0 0 1 5 0",
            "- 9 1 0 1 5:50:0:0",
            "0 0 0 2 5 0",
            "- 9 1 0 2 5:50:0:0 1:10:0:0",
            "0 0 0 3 5 0",
            "- 9 1 1 3 5:50:0:0 7:70:0:0 1:10:0:0",
            "0 0 0 4 5 0",
            "- 9 1 2 4 5:50:0:0 8:80:0:0 7:70:0:0 1:10:0:0",
            "7 7 0 3 5 1 10",
            "- 9 1 2 3 5:50:0:0 8:80:0:0 7:70:0:0",
        ],
    };
    assert_eq!(case.is_taken().up_to_key_order, 1);
    case.refuses(10, "7 7 0 4 5 0", 6, "held");
    case.refuses(10, "7 7 0 2 5 2 10 80", 6, "held");
    case.refuses(10, "6 5 0 4 5 0", 6, "code");
    case.refuses(
        11,
        "- 9 1 1 3 5:50:0:0 8:80:0:0 7:70:0:0",
        6,
        "state: estimate",
    );
}

#[test]
fn a_refused_clear_names_the_first_dirty_key() {
    let state = "- 9 1 1 3 7:70:0:0 6:60:0:0 5:50:0:0";
    let case = Case {
        records: vec![
            create(9),
            flagged(Insert, 7, DIRTY),
            flagged(Insert, 5, LOCKED),
            flagged(Insert, 6, DIRTY),
            optional(Clear, 0),
        ],
        lines: vec![
            "0 0 0 0 - 0",
            "- 9 1 0 0",
            "0 0 0 1 7 0",
            "- 9 1 0 1 7:70:0:0",
            "0 0 0 2 7 0",
            "- 9 1 1 2 7:70:0:0 5:50:0:0",
            "0 0 0 3 7 0",
            state,
            "6 6 0 3 7 0",
            state,
        ],
    };
    assert_eq!(case.is_taken().up_to_key_order, 1);
    case.refuses(8, "6 7 0 3 7 0", 5, "value");
    case.refuses(8, "5 5 0 3 7 0", 5, "code");
    case.refuses(8, "6 6 0 2 7 1 50", 5, "held");
    case.refuses(8, "0 0 0 0 - 3 50 60 70", 5, "code");
    case.refuses(9, "- 9 1 0 0", 5, "state: estimate");
}

#[test]
fn a_selection_has_as_many_pages_and_the_first_by_key() {
    let mut records = vec![create(10)];
    records.extend((2..12).map(|key| flagged(Insert, key, DIRTY)));
    let mut output = Vec::new();
    let input = bytes_of(&records);
    replay(&mut input.as_slice(), &mut output, WalkOrder::ByKey, true).unwrap();
    let output = String::from_utf8(output).unwrap();
    let state = output.lines().last().unwrap();
    records.push(numbered(CheckSpill, 3));
    let with = |answer: &str| compared(&records, &format!("{output}{answer}\n{state}\n"));
    assert_eq!(with("0 3 0 10 2 3 20 30 40").unwrap().up_to_key_order, 1);
    assert_eq!(what(with("0 2 0 10 2 2 20 30")), "value");
    assert_eq!(what(with("0 4 0 10 2 4 20 30 40 50")), "value");
    assert_eq!(what(with("0 3 0 10 2 3 20 30 50")), "list");
    assert_eq!(what(with("0 3 0 10 2 3 30 20 40")), "list");
    assert_eq!(what(with("19 0 0 10 2 0")), "code");
    assert_eq!(what(with("18 0 0 10 2 0")), "code");
}

#[test]
fn nothing_is_compared_between_another_record_and_the_next_creation() {
    let other_record = flagged(ForceUpsert, 5, DIRTY);
    let case = Case {
        records: vec![
            create(2),
            insert(5),
            other_record,
            lookup(5),
            create(257),
            create(1),
            lookup(5),
        ],
        lines: vec![
            "0 0 0 0 - 0",
            "- 2 1 0 0",
            "0 0 0 1 5 0",
            "- 2 1 1 1 5:50:0:0",
            "0 50 0 1 5 0",
            "- 2 1 0 1 5:50:1:0",
            "0 50 0 1 5 0",
            "- 2 1 0 1 5:50:2:0",
            "15 0 0 1 5 0",
            "- 2 1 0 1 5:50:2:0",
            "0 0 0 0 - 0",
            "- 1 1 0 0",
            "4 0 0 0 - 0",
            "- 1 1 0 0",
        ],
    };
    let summary = case.is_taken();
    assert_eq!((summary.exactly, summary.passed_over), (4, 3));
    case.refuses(10, "0 0 0 1 5 0", 6, "held");
    case.refuses(12, "0 0 0 0 - 0", 7, "code");
    // The lines have to be there all the same.
    for place in 4..10 {
        let mut lines = case.lines.clone();
        lines.remove(place);
        let output: String = lines.iter().map(|line| format!("{line}\n")).collect();
        let refused = compared(&case.records, &output);
        assert!(matches!(refused, Err(Failure::NotALine { .. })), "{place}");
    }
}

#[test]
fn the_rust_agrees_with_itself_where_its_map_does_not_matter() {
    let plan = random::Plan {
        seed: 6,
        marks_percent: 0,
        exact: true,
    };
    let mut trace = random::Trace::new(plan);
    let records: Vec<_> = (0..20_000).map(|_| trace.next_record()).collect();
    let input = bytes_of(&records);
    let mut output = Vec::new();
    replay(&mut input.as_slice(), &mut output, WalkOrder::ByKey, true).unwrap();
    let summary = compare(
        &mut input.as_slice(),
        &mut output.as_slice(),
        Form::AnswersAndStates,
    )
    .unwrap_or_else(|failure| panic!("{failure}"));
    assert_eq!((summary.records(), summary.exactly), (20_000, 20_000));
}
