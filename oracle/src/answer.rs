//! What the oracle says of a record: an answer, a mark, and the state after it.

use crate::storage::page_cache::inspect::RingEntry;
use std::fmt;

/// Document 01's answer codes, by the names of docs/answers.tsv. The Rust can give some of
/// them; the others are for records that it isn't asked about, or for callers that lend memory.
pub mod code {
    pub const DONE: u8 = 0;
    pub const NOT_SOUND: u8 = 1;
    pub const BAD_RECORD: u8 = 2;
    pub const SHORT_LIST: u8 = 3;
    pub const ABSENT: u8 = 4;
    pub const LOCKED: u8 = 5;
    pub const DIRTY: u8 = 6;
    pub const PINNED: u8 = 7;
    pub const FULL: u8 = 8;
    pub const KEY_EXISTS: u8 = 9;
    pub const PENDING_EVICTIONS: u8 = 10;
    pub const OTHER_PAGE: u8 = 11;
    pub const HANDLE_ELSEWHERE: u8 = 12;
    pub const NO_SLOT: u8 = 13;
    pub const EMPTY: u8 = 14;
    pub const TOO_LARGE: u8 = 15;
    pub const BAD_LENGTHS: u8 = 16;
    pub const BAD_REPLAY: u8 = 17;
    pub const NOT_NEEDED: u8 = 18;
    pub const NONE_SELECTED: u8 = 19;
    pub const HOLDER_LIMIT: u8 = 20;
    /// How many there are.
    pub const COUNT: usize = 21;
}

/// Why the Rust isn't asked. The order is the one in which they are tested.
#[derive(Clone, Copy, Debug, PartialEq, Eq, PartialOrd, Ord)]
pub enum Mark {
    /// Bad operation, option or tail: 01's code 17.
    Record,
    /// Nothing was created yet: 01's code 1.
    NoCache,
    /// Capacity above the slots: 01's code 15.
    Capacity,
    /// Flags above 31: 01's code 2.
    Flags,
    /// The handle stands under another key: 01's code 12.
    HandleTaken,
    /// The key stands with another handle, where the Rust asserts: 01's code 11.
    OtherPage,
    /// The key's own handle with another record. In the Rust it is one page, so
    /// there can't be two records: outside 01's domain.
    OtherRecord,
    /// A forced insertion without a free slot, which the Rust doesn't have:
    /// 01's code 13.
    Slots,
    /// One holder more than 65,535, where the Rust has no limit, or one less than
    /// none: 02's code 20.
    Holders,
}

impl Mark {
    pub const ALL: [Mark; 9] = [
        Mark::Record,
        Mark::NoCache,
        Mark::Capacity,
        Mark::Flags,
        Mark::HandleTaken,
        Mark::OtherPage,
        Mark::OtherRecord,
        Mark::Slots,
        Mark::Holders,
    ];

    /// Document 01's code for a record with this mark, if it has one.
    pub fn code(self) -> Option<u8> {
        match self {
            Mark::Record => Some(code::BAD_REPLAY),
            Mark::NoCache => Some(code::NOT_SOUND),
            Mark::Capacity => Some(code::TOO_LARGE),
            Mark::Flags => Some(code::BAD_RECORD),
            Mark::HandleTaken => Some(code::HANDLE_ELSEWHERE),
            Mark::OtherPage => Some(code::OTHER_PAGE),
            Mark::OtherRecord => None,
            Mark::Slots => Some(code::NO_SLOT),
            Mark::Holders => Some(code::HOLDER_LIMIT),
        }
    }

    pub fn reason(self) -> &'static str {
        match self {
            Mark::Record => "record",
            Mark::NoCache => "no cache",
            Mark::Capacity => "capacity",
            Mark::Flags => "flags",
            Mark::HandleTaken => "handle taken",
            Mark::OtherPage => "other page",
            Mark::OtherRecord => "other record",
            Mark::Slots => "slots",
            Mark::Holders => "holders",
        }
    }
}

/// What the replay program prints of one call.
#[derive(Clone, Debug, PartialEq, Eq)]
pub struct Answer {
    pub code: u8,
    /// Found or replaced handle, refusing key, number selected, else 0.
    pub value: u64,
    /// Pages passed by all sweeps of the call.
    pub passed: u64,
    pub held: usize,
    /// The key of the hand's page.
    pub hand: Option<u32>,
    /// Handles removed or selected.
    pub list: Vec<u32>,
}

#[derive(Clone, Debug, PartialEq, Eq)]
pub enum Outcome {
    Answer(Answer),
    Mark(Mark),
}

impl Answer {
    /// Writes the replay program's line, without its end.
    pub fn write_line(&self, line: &mut Vec<u8>) {
        for number in [u64::from(self.code), self.value, self.passed] {
            push_number(line, number);
            line.push(b' ');
        }
        push_number(line, self.held as u64);
        line.push(b' ');
        match self.hand {
            Some(key) => push_number(line, key.into()),
            None => line.push(b'-'),
        }
        line.push(b' ');
        push_number(line, self.list.len() as u64);
        for &handle in &self.list {
            line.push(b' ');
            push_number(line, handle.into());
        }
    }
}

impl Outcome {
    /// Writes the replay program's line, or `?` and the mark's reason.
    pub fn write_line(&self, line: &mut Vec<u8>) {
        match self {
            Outcome::Answer(answer) => answer.write_line(line),
            Outcome::Mark(mark) => {
                line.extend_from_slice(b"? ");
                line.extend_from_slice(mark.reason().as_bytes());
            }
        }
    }
}

impl fmt::Display for Outcome {
    fn fmt(&self, text: &mut fmt::Formatter) -> fmt::Result {
        let mut line = Vec::new();
        self.write_line(&mut line);
        text.write_str(&String::from_utf8_lossy(&line))
    }
}

/// The whole state of the cache.
#[derive(Clone, Debug, PartialEq, Eq)]
pub struct State {
    pub capacity: usize,
    pub spill_enabled: bool,
    pub estimate: usize,
    /// In sweep order from the hand.
    pub ring: Vec<RingEntry>,
}

/// The state line before the first good creation.
pub const NO_CACHE: &str = "- no cache";

impl State {
    /// Writes `- CAPACITY SPILL ESTIMATE HELD`, then `KEY:HANDLE:USES:HOLDERS` for
    /// each page.
    pub fn write_line(&self, line: &mut Vec<u8>) {
        line.extend_from_slice(b"- ");
        push_number(line, self.capacity as u64);
        line.extend_from_slice(if self.spill_enabled { b" 1 " } else { b" 0 " });
        push_number(line, self.estimate as u64);
        line.push(b' ');
        push_number(line, self.ring.len() as u64);
        for entry in &self.ring {
            line.push(b' ');
            push_number(line, entry.key.into());
            line.push(b':');
            push_number(line, entry.handle.into());
            line.push(b':');
            push_number(line, entry.uses.into());
            line.push(b':');
            push_number(line, entry.holders as u64);
        }
    }
}

impl fmt::Display for State {
    fn fmt(&self, text: &mut fmt::Formatter) -> fmt::Result {
        let mut line = Vec::new();
        self.write_line(&mut line);
        text.write_str(&String::from_utf8_lossy(&line))
    }
}

/// Writes a number in decimal, without the standard library's formatting: a long
/// run writes a hundred numbers for each record.
fn push_number(line: &mut Vec<u8>, number: u64) {
    let mut digits = [0; 20];
    let mut first = digits.len();
    let mut left = number;
    loop {
        first -= 1;
        digits[first] = b'0' + (left % 10) as u8;
        left /= 10;
        if left == 0 {
            break;
        }
    }
    line.extend_from_slice(&digits[first..]);
}
