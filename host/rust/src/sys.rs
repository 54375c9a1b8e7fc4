//! The four exported functions of crate `page_cache_c`, as `host/include/page_cache.h` declares them, over slices.
//!
//! They are total: any lengths and any contents get a defined answer, which is proved. What makes the calls safe is what
//! Rust's slices are: pointers to as many elements as they say, of which no mutable one overlaps another.
use crate::calls::Code;

/// The most slots of a pool.
pub const MAX_SLOTS: usize = 4096;
/// The words of a slot.
pub const SLOT_WORDS: usize = 4;
/// The numbers of a head.
pub const HEAD: usize = 5;
/// The numbers of an answer.
pub const ANSWER: usize = 6;
/// The numbers of a page in a listing.
pub const PAGE: usize = 8;
/// The hand's key in an answer if nothing is held.
pub const NO_KEY: u64 = 1 << 32;

/// The places of a head's numbers.
pub mod head {
    /// The most pages to hold. Forced insertion may exceed it.
    pub const CAPACITY: usize = 0;
    /// Pages held.
    pub const HELD: usize = 1;
    /// The hand's slot, or 0 if nothing is held.
    pub const HAND: usize = 2;
    /// The spill switch, 0 or 1.
    pub const SPILL: usize = 3;
    /// The estimate of evictable pages.
    pub const ESTIMATE: usize = 4;
}

/// The places of an answer's numbers.
pub mod answer {
    /// The [`crate::Code`].
    pub const CODE: usize = 0;
    /// Found or replaced handle, refusing key, number selected, else 0.
    pub const VALUE: usize = 1;
    /// Pages that sweeps passed.
    pub const PASSED: usize = 2;
    /// Pages held after the call.
    pub const HELD: usize = 3;
    /// The hand's key after the call, or [`super::NO_KEY`].
    pub const HAND: usize = 4;
    /// Handles in the first places of the list.
    pub const LISTED: usize = 5;
}

/// The code that a function of the library answered.
fn code(number: u32) -> Code {
    Code::from_number(number).expect("the library answers with a code of docs/answers.tsv")
}

mod library {
    extern "C" {
        pub fn pc_create(
            slots: *mut u64, slots_length: usize, by_key: *mut u32, by_key_length: usize, by_handle: *mut u32,
            by_handle_length: usize, marks: *mut u64, marks_length: usize, head: *mut u64, head_length: usize, capacity: u64,
        ) -> u32;
        pub fn pc_test(
            slots: *const u64, slots_length: usize, by_key: *const u32, by_key_length: usize, by_handle: *const u32,
            by_handle_length: usize, marks: *const u64, marks_length: usize, head: *const u64, head_length: usize,
        ) -> u32;
        pub fn pc_list(
            slots: *const u64, slots_length: usize, by_key: *const u32, by_key_length: usize, by_handle: *const u32,
            by_handle_length: usize, marks: *const u64, marks_length: usize, head: *const u64, head_length: usize,
            list: *mut u64, list_length: usize,
        ) -> u32;
        pub fn pc_apply(
            slots: *mut u64, slots_length: usize, by_key: *mut u32, by_key_length: usize, by_handle: *mut u32,
            by_handle_length: usize, marks: *mut u64, marks_length: usize, head: *mut u64, head_length: usize,
            list: *mut u32, list_length: usize, record: *const u8, record_length: usize, answer: *mut u64, answer_length: usize,
        ) -> u32;
    }
}

/// Makes a cache of any memory, and its head: `Done`; or `TooLarge` or `BadLengths`, and nothing is altered.
pub fn create(
    slots: &mut [u64], by_key: &mut [u32], by_handle: &mut [u32], marks: &mut [u64], head: &mut [u64], capacity: u64,
) -> Code {
    code(unsafe {
        library::pc_create(
            slots.as_mut_ptr(), slots.len(), by_key.as_mut_ptr(), by_key.len(), by_handle.as_mut_ptr(), by_handle.len(),
            marks.as_mut_ptr(), marks.len(), head.as_mut_ptr(), head.len(), capacity,
        )
    })
}

/// Whether the memory is sound: `Done` if it is, `NotSound` if not, `BadLengths` if the head is not of [`HEAD`] numbers.
pub fn test(slots: &[u64], by_key: &[u32], by_handle: &[u32], marks: &[u64], head: &[u64]) -> Code {
    code(unsafe {
        library::pc_test(
            slots.as_ptr(), slots.len(), by_key.as_ptr(), by_key.len(), by_handle.as_ptr(), by_handle.len(), marks.as_ptr(),
            marks.len(), head.as_ptr(), head.len(),
        )
    })
}

/// Lists the held pages in sweep order, [`PAGE`] numbers to each: `Done`; or `NotSound`, `ShortList` or `BadLengths`, and the list
/// stays as it was.
pub fn list(slots: &[u64], by_key: &[u32], by_handle: &[u32], marks: &[u64], head: &[u64], list: &mut [u64]) -> Code {
    code(unsafe {
        library::pc_list(
            slots.as_ptr(), slots.len(), by_key.as_ptr(), by_key.len(), by_handle.as_ptr(), by_handle.len(), marks.as_ptr(),
            marks.len(), head.as_ptr(), head.len(), list.as_mut_ptr(), list.len(),
        )
    })
}

/// Carries out a record of 32 bytes. The answer's numbers are written, and its code is handed back too.
#[allow(clippy::too_many_arguments)]
pub fn apply(
    slots: &mut [u64], by_key: &mut [u32], by_handle: &mut [u32], marks: &mut [u64], head: &mut [u64], list: &mut [u32],
    record: &[u8], answer: &mut [u64],
) -> Code {
    code(unsafe {
        library::pc_apply(
            slots.as_mut_ptr(), slots.len(), by_key.as_mut_ptr(), by_key.len(), by_handle.as_mut_ptr(), by_handle.len(),
            marks.as_mut_ptr(), marks.len(), head.as_mut_ptr(), head.len(), list.as_mut_ptr(), list.len(), record.as_ptr(),
            record.len(), answer.as_mut_ptr(), answer.len(),
        )
    })
}
