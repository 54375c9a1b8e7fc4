//! What a call answers.
use crate::calls::Code;
use crate::record::{PageCacheKey, PageHandle};
use crate::sys;
use std::fmt;

/// All that a call answered, but for the handles: [`crate::PageCache::listed`] has those.
#[derive(Clone, Copy, Debug, PartialEq, Eq)]
pub struct Answer {
    /// Document 01's code.
    pub code: Code,
    /// Found or replaced handle, refusing key, number selected, else 0.
    pub value: u32,
    /// Pages that sweeps passed.
    pub passed: u64,
    /// Pages held after the call.
    pub held: u32,
    /// The hand's key after the call.
    pub hand: Option<PageCacheKey>,
    /// How many handles were listed.
    pub listed: u32,
}

impl Answer {
    /// What is answered before any call.
    pub(crate) const NONE: Answer = Answer { code: Code::Done, value: 0, passed: 0, held: 0, hand: None, listed: 0 };

    /// The answer that these numbers are. They fit, by the contract of the function that wrote them with this code.
    pub(crate) fn of(code: Code, numbers: [u64; sys::ANSWER]) -> Self {
        let [_, value, passed, held, hand, listed] = numbers;
        Answer {
            code,
            value: value as u32,
            passed,
            held: held as u32,
            hand: (hand != sys::NO_KEY).then_some(PageCacheKey(hand as u32)),
            listed: listed as u32,
        }
    }

    /// Why the call was refused, unless it was done.
    ///
    /// ```
    /// # use page_cache::{CacheError, PageCache};
    /// let mut cache = PageCache::new(4, 2)?;
    /// assert_eq!(cache.apply(&[255; 32]).error(), Some(CacheError::BadReplay));
    /// # Ok::<(), CacheError>(())
    /// ```
    pub fn error(&self) -> Option<CacheError> {
        CacheError::of(self.code, self.value)
    }
}

/// Why a call was refused: a case for each code but [`Code::Done`]. `Locked`, `Dirty`, `Pinned`, `Full` and `KeyExists` are the
/// original's; the others stand in the place of its `InternalError`, or for what it asserts or can't meet.
#[derive(Clone, Copy, Debug, PartialEq, Eq, Hash)]
#[non_exhaustive]
pub enum CacheError {
    /// The memory is not sound.
    NotSound,
    /// The page record has flags above 31.
    BadRecord,
    /// The list is shorter than the pages held.
    ShortList,
    /// The key is absent. Methods that look a key up answer `None` in its place, and [`crate::PageCache::write_record`] `false`.
    Absent,
    /// The page is locked.
    Locked {
        /// Its key.
        pgno: usize,
    },
    /// The page is dirty.
    Dirty {
        /// Its key.
        pgno: usize,
    },
    /// The page is pinned.
    Pinned {
        /// Its key.
        pgno: usize,
    },
    /// No page may go, or the capacity is 0.
    Full,
    /// The key is there, with the same handle. It was touched.
    KeyExists,
    /// More pages are held than the new capacity, and none of them may go. [`crate::PageCache::resize`] answers
    /// [`CacheResizeResult::PendingEvictions`] in its place.
    PendingEvictions,
    /// The key is there, with another handle.
    OtherPage,
    /// The handle stands under another key.
    HandleElsewhere,
    /// Every slot is taken.
    NoSlot,
    /// One page is to be evicted, and none is held.
    Empty,
    /// The capacity is above the number of slots.
    TooLarge,
    /// The number of slots or a lent length is wrong.
    BadLengths,
    /// The bytes are no record.
    BadReplay,
    /// No spill is needed. [`crate::PageCache::check_spill`] answers [`SpillResult::NotNeeded`] in its place.
    NotNeeded,
    /// A spill is needed, and no page was selected. [`crate::PageCache::check_spill`] answers [`SpillResult::CacheFull`] in its
    /// place.
    NoneSelected,
    /// The page has 65,535 holders, and a lookup would add one; or it has none, and [`crate::PageCache::release`] would take one
    /// away.
    HolderLimit,
}

impl CacheError {
    /// The error of a code, with the value that the answer carries.
    pub(crate) fn of(code: Code, value: u32) -> Option<Self> {
        let pgno = value as usize;
        Some(match code {
            Code::Done => return None,
            Code::NotSound => CacheError::NotSound,
            Code::BadRecord => CacheError::BadRecord,
            Code::ShortList => CacheError::ShortList,
            Code::Absent => CacheError::Absent,
            Code::Locked => CacheError::Locked { pgno },
            Code::Dirty => CacheError::Dirty { pgno },
            Code::Pinned => CacheError::Pinned { pgno },
            Code::Full => CacheError::Full,
            Code::KeyExists => CacheError::KeyExists,
            Code::PendingEvictions => CacheError::PendingEvictions,
            Code::OtherPage => CacheError::OtherPage,
            Code::HandleElsewhere => CacheError::HandleElsewhere,
            Code::NoSlot => CacheError::NoSlot,
            Code::Empty => CacheError::Empty,
            Code::TooLarge => CacheError::TooLarge,
            Code::BadLengths => CacheError::BadLengths,
            Code::BadReplay => CacheError::BadReplay,
            Code::NotNeeded => CacheError::NotNeeded,
            Code::NoneSelected => CacheError::NoneSelected,
            Code::HolderLimit => CacheError::HolderLimit,
        })
    }
}

impl fmt::Display for CacheError {
    fn fmt(&self, f: &mut fmt::Formatter<'_>) -> fmt::Result {
        let why = match self {
            // the original's words
            CacheError::Locked { pgno } => return write!(f, "page {pgno} is locked"),
            CacheError::Dirty { pgno } => return write!(f, "page {pgno} is dirty"),
            CacheError::Pinned { pgno } => return write!(f, "page {pgno} is pinned"),
            CacheError::Full => "Page cache is full",
            CacheError::KeyExists => "key already exists",
            // ours
            CacheError::NotSound => "the memory is not sound",
            CacheError::BadRecord => "the page record has flags above 31",
            CacheError::ShortList => "the list is shorter than the pages held",
            CacheError::Absent => "the key is absent",
            CacheError::PendingEvictions => "more pages are held than the new capacity, and none of them may go",
            CacheError::OtherPage => "the key is there with another handle",
            CacheError::HandleElsewhere => "the handle stands under another key",
            CacheError::NoSlot => "every slot is taken",
            CacheError::Empty => "one page is to be evicted, and none is held",
            CacheError::TooLarge => "the capacity is above the number of slots",
            CacheError::BadLengths => "the number of slots or a lent length is wrong",
            CacheError::BadReplay => "the bytes are no record",
            CacheError::NotNeeded => "no spill is needed",
            CacheError::NoneSelected => "a spill is needed, and no page was selected",
            CacheError::HolderLimit => "the page has 65,535 holders and would get one more, or has none and would lose one",
        };
        f.write_str(why)
    }
}

impl std::error::Error for CacheError {}

/// What a resize came to.
#[derive(Clone, Copy, Debug, PartialEq, Eq)]
pub enum CacheResizeResult {
    /// The capacity is the new one.
    Done,
    /// More pages are held than the new capacity, and none of them may go. The capacity is the old one; evictions stand.
    PendingEvictions,
}

/// What a spill check came to. The original's `Disabled` is never built, and is left out.
#[derive(Clone, Debug, PartialEq, Eq)]
pub enum SpillResult {
    /// No spill is needed.
    NotNeeded,
    /// Pages to spill, by ascending key. Nothing in the pool has changed.
    PagesToSpill(Vec<PageHandle>),
    /// A spill is needed, and no page can be spilled.
    CacheFull,
}
