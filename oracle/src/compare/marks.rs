//! Document 01's answers to the records that the Rust isn't asked about.

use crate::answer::{Answer, Mark, State};
use crate::driver::SLOTS;

/// The whole answer, given the state, which stays as it is. The codes are those of
/// the README's table.
///
/// # Panics
/// If the mark is `other record`: such a record is outside 01's domain.
pub fn answer(mark: Mark, state: Option<&State>) -> Answer {
    let ring = state.map_or(&[][..], |state| &state.ring);
    Answer {
        code: mark
            .code()
            .expect("document 01 has no answer for another record"),
        value: 0,
        passed: passed(mark, state),
        held: ring.len(),
        hand: ring.first().map(|entry| entry.key),
        list: Vec::new(),
    }
}

/// A forced insertion finds that no slot is free when a sweep over all of them
/// has failed, or was not tried because the capacity is 0.
fn passed(mark: Mark, state: Option<&State>) -> u64 {
    match state {
        Some(state) if mark == Mark::Slots && state.capacity > 0 => 4 * SLOTS,
        _ => 0,
    }
}
