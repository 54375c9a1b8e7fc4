//! The fixed sample is what the commands in its README make, and it has every
//! operation and every answer that the Rust can give.

use crate::binary::output_of;
use oracle::answer::Outcome;
use oracle::driver::{Driver, WalkOrder};
use oracle::record::{Operation, Record};
use std::collections::BTreeSet;

const RECORDS: &[u8] = include_bytes!("../../sample/records.bin");
const ANSWERS: &str = include_str!("../../sample/answers.txt");

/// The commands of the sample's README.
const GENERATE: [&str; 7] = [
    "generate",
    "random",
    "--seed",
    "138",
    "--records",
    "4000",
    "--exact",
];
const REPLAY: [&str; 2] = ["replay", "--by-key"];

#[test]
fn the_records_are_generated() {
    assert!(output_of(&GENERATE, &[]) == RECORDS, "records.bin differs");
}

#[test]
fn the_answers_are_the_rusts() {
    let answers = String::from_utf8(output_of(&REPLAY, RECORDS)).expect("lines are text");
    for (number, (new, kept)) in answers.lines().zip(ANSWERS.lines()).enumerate() {
        assert_eq!(new, kept, "record {number}");
    }
    assert!(answers == ANSWERS, "answers.txt differs in length");
}

#[test]
fn the_readme_has_these_commands() {
    let readme = include_str!("../../sample/README.md");
    for command in [GENERATE.join(" "), REPLAY.join(" ")] {
        assert!(readme.contains(&command), "{command}");
    }
}

#[test]
fn every_operation_and_every_answer_is_in_it() {
    let operations: BTreeSet<u8> = RECORDS.chunks(32).map(|record| record[0]).collect();
    assert!(operations.into_iter().eq(0..Operation::ALL.len() as u8));
    let codes: BTreeSet<u8> = ANSWERS
        .lines()
        .map(|line| line.split(' ').next().unwrap().parse().expect("no marks"))
        .collect();
    assert!(codes.into_iter().eq([0, 4, 5, 6, 7, 8, 9, 10, 14, 18, 19]));
}

#[test]
fn releases_and_pages_with_all_their_holders_are_in_it() {
    let mut driver = Driver::new(WalkOrder::ByKey);
    let mut asked = BTreeSet::new();
    for bytes in RECORDS.chunks(32) {
        let record = Record::from_bytes(bytes.try_into().expect("a whole record"));
        let holders = driver.stored(record.key).map(|(_, page)| page.holders);
        let Outcome::Answer(answer) = driver.apply(&record) else {
            panic!("a mark for {record:?}");
        };
        asked.insert((record.good_operation().unwrap(), holders, answer.code));
    }
    for expected in [
        (Operation::Get, Some(u16::MAX), 4),
        (Operation::Get, Some(u16::MAX), 7),
        (Operation::Get, Some(u16::MAX - 1), 0),
        (Operation::Peek, Some(u16::MAX - 1), 0),
        (Operation::Release, Some(u16::MAX), 0),
        (Operation::Release, Some(1), 0),
        (Operation::Release, None, 4),
    ] {
        assert!(asked.contains(&expected), "{expected:?}");
    }
}

#[test]
fn a_full_pool_and_walks_over_several_pages_are_in_it() {
    let field = |line: &str, place: usize| line.split(' ').nth(place).map(str::to_owned);
    let held = |line: &str| field(line, 3);
    assert!(ANSWERS
        .lines()
        .any(|line| held(line).as_deref() == Some("256")));
    for walk in [
        Operation::Truncate,
        Operation::RemoveFrames,
        Operation::Clear,
    ] {
        let removed_several = RECORDS
            .chunks(32)
            .zip(ANSWERS.lines())
            .filter(|(record, _)| record[0] == walk.number())
            .any(|(_, line)| field(line, 5).unwrap().parse::<u32>().unwrap() > 1);
        assert!(removed_several, "{walk:?}");
    }
}
