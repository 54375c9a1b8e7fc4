//! The repository's table of calls says which answers each operation can give: those that the
//! generators' test sees arise, and those that no replay record can bring about.

use crate::generators::{possible_codes, possible_marks};
use oracle::answer::code;
use oracle::record::Operation::{self, *};
use std::collections::BTreeSet;

const CALLS: &str = include_str!("../../../docs/calls.tsv");

/// The cells of a column, below its name.
fn column(name: &str) -> Vec<&'static str> {
    let place = CALLS
        .lines()
        .next()
        .unwrap()
        .split('\t')
        .position(|cell| cell == name);
    let place = place.unwrap_or_else(|| panic!("no column {name}"));
    CALLS
        .lines()
        .skip(1)
        .map(|line| line.split('\t').nth(place).unwrap())
        .collect()
}

/// The replay program lends a list and the right memory, so that these don't arise in it.
fn codes_of_other_callers(operation: Operation) -> &'static [u8] {
    match operation {
        Create => &[code::BAD_LENGTHS],
        Peek | NotifyDirty | NotifySpilled | WriteRecord | SetSpill | Release => &[],
        _ => &[code::SHORT_LIST],
    }
}

#[test]
fn every_operation_is_in_it_with_its_answers() {
    let answers = column("answers");
    assert_eq!(answers.len(), Operation::ALL.len());
    for (operation, said) in Operation::ALL.into_iter().zip(answers) {
        let mut codes = BTreeSet::from_iter(possible_codes(operation).iter().copied());
        codes.extend(
            possible_marks(operation)
                .iter()
                .filter_map(|mark| mark.code()),
        );
        codes.extend(codes_of_other_callers(operation));
        let codes: Vec<_> = codes.iter().map(u8::to_string).collect();
        assert_eq!(said, codes.join(" "), "{operation:?}");
    }
}
