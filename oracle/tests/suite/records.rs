//! The fields stand where document 01 puts them.

use oracle::record::{Operation, Record};

#[test]
fn each_field_stands_in_its_place() {
    let bytes: [u8; Record::LENGTH] = std::array::from_fn(|at| at as u8);
    let record = Record {
        operation: 0,
        flags: 1,
        pins: 0x0302,
        key: 0x0706_0504,
        handle: 0x0b0a_0908,
        holders: 0x0d0c,
        overflow_cells: 14,
        option: 15,
        number: 0x1716_1514_1312_1110,
        tail: 0x1f1e_1d1c_1b1a_1918,
    };
    assert_eq!(Record::from_bytes(&bytes), record);
    assert_eq!(record.to_bytes(), bytes);
}

#[test]
fn operations_are_numbered_from_0_on() {
    for number in 0..=u8::MAX {
        let operation = Operation::from_number(number);
        assert_eq!(
            operation.is_some(),
            usize::from(number) < Operation::ALL.len()
        );
        assert!(operation.is_none_or(|operation| operation.number() == number));
    }
}
