//! The memory of a pool: owned, or lent by the caller.
use crate::sys;
use std::fmt;
use std::ops::{Deref, DerefMut};

/// A slice that is owned or lent.
pub(crate) enum Part<'a, T> {
    Owned(Box<[T]>),
    Lent(&'a mut [T]),
}

impl<T> Deref for Part<'_, T> {
    type Target = [T];

    fn deref(&self) -> &[T] {
        match self {
            Part::Owned(part) => part,
            Part::Lent(part) => part,
        }
    }
}

impl<T> DerefMut for Part<'_, T> {
    fn deref_mut(&mut self) -> &mut [T] {
        match self {
            Part::Owned(part) => part,
            Part::Lent(part) => part,
        }
    }
}

/// A pool's four arrays and its head.
pub struct Memory<'a> {
    pub(crate) slots: Part<'a, u64>,
    pub(crate) by_key: Part<'a, u32>,
    pub(crate) by_handle: Part<'a, u32>,
    pub(crate) marks: Part<'a, u64>,
    pub(crate) head: [u64; sys::HEAD],
}

impl Memory<'static> {
    /// Zeros for a pool of `slots` slots. That is no cache yet.
    pub fn owned(slots: usize) -> Self {
        Memory {
            slots: Part::Owned(vec![0; sys::SLOT_WORDS * slots].into()),
            by_key: Part::Owned(vec![0; slots].into()),
            by_handle: Part::Owned(vec![0; slots].into()),
            marks: Part::Owned(vec![0; slots.div_ceil(u64::BITS as usize)].into()),
            head: [0; sys::HEAD],
        }
    }
}

impl<'a> Memory<'a> {
    /// The caller's memory, with any contents, and any head: capacity, held, hand, spill switch, estimate. For S slots the
    /// lengths are 4 S, S, S and S / 64, rounded up. Others make a pool that is not sound.
    pub fn lent(
        slots: &'a mut [u64], by_key: &'a mut [u32], by_handle: &'a mut [u32], marks: &'a mut [u64], head: [u64; sys::HEAD],
    ) -> Self {
        Memory {
            slots: Part::Lent(slots),
            by_key: Part::Lent(by_key),
            by_handle: Part::Lent(by_handle),
            marks: Part::Lent(marks),
            head,
        }
    }

    /// The slots, four words to each.
    pub fn slots(&self) -> &[u64] {
        &self.slots
    }

    /// The held slots by ascending key, then zeros.
    pub fn by_key(&self) -> &[u32] {
        &self.by_key
    }

    /// The held slots by ascending handle, then zeros.
    pub fn by_handle(&self) -> &[u32] {
        &self.by_handle
    }

    /// A bit for each free slot.
    pub fn marks(&self) -> &[u64] {
        &self.marks
    }

    /// The head's numbers, in the places that [`sys::head`] names.
    pub fn head(&self) -> [u64; sys::HEAD] {
        self.head
    }
}

/// How large the parts are, and the head: the parts themselves would be thousands of numbers.
impl fmt::Debug for Memory<'_> {
    fn fmt(&self, f: &mut fmt::Formatter<'_>) -> fmt::Result {
        let [capacity, held, hand, spill, estimate] = self.head;
        f.debug_struct("Memory")
            .field("slot_words", &self.slots.len())
            .field("by_key", &self.by_key.len())
            .field("by_handle", &self.by_handle.len())
            .field("mark_words", &self.marks.len())
            .field("capacity", &capacity)
            .field("held", &held)
            .field("hand", &hand)
            .field("spill", &spill)
            .field("estimate", &estimate)
            .finish()
    }
}
