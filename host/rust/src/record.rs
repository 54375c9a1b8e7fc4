//! Keys, handles, page records, and the 32 bytes of a call.
use crate::calls::Operation;
use crate::sys;

/// A page's key, which is also its id.
#[derive(Clone, Copy, Debug, PartialEq, Eq, PartialOrd, Ord, Hash)]
pub struct PageCacheKey(pub u32);

impl PageCacheKey {
    /// The key of the page with this number.
    pub const fn new(pgno: u32) -> Self {
        PageCacheKey(pgno)
    }
}

/// The caller's name for a page. Equal handles mean the same page.
#[derive(Clone, Copy, Debug, PartialEq, Eq, PartialOrd, Ord, Hash)]
#[repr(transparent)]
pub struct PageHandle(pub u32);

impl PageHandle {
    /// The handles that these numbers are.
    pub(crate) fn of_numbers(numbers: &[u32]) -> &[PageHandle] {
        // a handle is a number and nothing else: `repr(transparent)`
        unsafe { std::slice::from_raw_parts(numbers.as_ptr().cast(), numbers.len()) }
    }
}

/// A page record: what the cache is told of a page.
#[derive(Clone, Copy, Debug, Default, PartialEq, Eq)]
pub struct Page {
    /// Which of the five flags are set; any other is refused.
    pub flags: u8,
    /// How often the page is pinned.
    pub pins: u16,
    /// How many hold the page besides the cache. A page that has some is never evicted, nor selected for a spill.
    /// [`crate::PageCache::get`] and [`crate::PageCache::peek`] add one, [`crate::PageCache::release`] takes one away, and a record
    /// that is inserted or written sets them.
    pub holders: u16,
    /// Its overflow cells.
    pub cells: u8,
    /// Its frame in the log.
    pub frame: u64,
}

impl Page {
    /// The page's content is there.
    pub const LOADED: u8 = 1;
    /// The page is locked.
    pub const LOCKED: u8 = 2;
    /// The page was changed.
    pub const DIRTY: u8 = 4;
    /// The page was spilled.
    pub const SPILLED: u8 = 8;
    /// The page has a tag of the log.
    pub const TAGGED: u8 = 16;

    /// A page with these flags that nobody pins or holds.
    pub fn with(flags: u8) -> Self {
        Page { flags, ..Page::default() }
    }

    /// A loaded page, free to go.
    pub fn loaded() -> Self {
        Page::with(Page::LOADED)
    }
}

/// A page of the pool listing.
#[derive(Clone, Copy, Debug, PartialEq, Eq)]
pub struct ListedPage {
    /// Its key.
    pub key: PageCacheKey,
    /// Its handle.
    pub handle: PageHandle,
    /// Its record.
    pub page: Page,
    /// Its use count, 0 to 3.
    pub uses: u8,
}

impl ListedPage {
    /// The numbers of a page in a listing.
    pub const NUMBERS: usize = sys::PAGE;

    /// The page of these numbers of a listing. They fit, since the listing is one of a sound pool.
    pub(crate) fn of(numbers: [u64; sys::PAGE]) -> Self {
        let [key, handle, flags, pins, holders, cells, frame, uses] = numbers;
        ListedPage {
            key: PageCacheKey(key as u32),
            handle: PageHandle(handle as u32),
            page: Page { flags: flags as u8, pins: pins as u16, holders: holders as u16, cells: cells as u8, frame },
            uses: uses as u8,
        }
    }
}

/// A call as the replay program's records have it.
#[derive(Clone, Copy, Debug, PartialEq, Eq)]
pub struct Record {
    /// Which call it is.
    pub operation: Operation,
    /// The key, where the call has one.
    pub key: u32,
    /// The handle, where the call has one.
    pub handle: u32,
    /// The page record, where the call has one. Its frame stands in the place of the number.
    pub page: Page,
    /// Touch, dirty too, on.
    pub option: bool,
}

impl Record {
    /// The length of a record in bytes.
    pub const LENGTH: usize = 32;

    /// A record of this operation whose other fields are zero.
    pub fn new(operation: Operation) -> Self {
        Record { operation, key: 0, handle: 0, page: Page::default(), option: false }
    }

    /// The record with this key.
    pub fn with_key(self, key: PageCacheKey) -> Self {
        Record { key: key.0, ..self }
    }

    /// The record with this handle.
    pub fn with_handle(self, handle: PageHandle) -> Self {
        Record { handle: handle.0, ..self }
    }

    /// The record with this page record.
    pub fn with_page(self, page: Page) -> Self {
        Record { page, ..self }
    }

    /// The record with this number: a capacity, a limit, or the most to select. It stands in the place of a page's frame.
    pub fn with_number(self, number: u64) -> Self {
        Record { page: Page { frame: number, ..self.page }, ..self }
    }

    /// The record with this option.
    pub fn with_option(self, option: bool) -> Self {
        Record { option, ..self }
    }

    /// The record's bytes, little-endian.
    pub fn bytes(self) -> [u8; Self::LENGTH] {
        let mut bytes = [0; Self::LENGTH];
        bytes[0] = self.operation.number();
        bytes[1] = self.page.flags;
        bytes[2..4].copy_from_slice(&self.page.pins.to_le_bytes());
        bytes[4..8].copy_from_slice(&self.key.to_le_bytes());
        bytes[8..12].copy_from_slice(&self.handle.to_le_bytes());
        bytes[12..14].copy_from_slice(&self.page.holders.to_le_bytes());
        bytes[14] = self.page.cells;
        bytes[15] = u8::from(self.option);
        bytes[16..24].copy_from_slice(&self.page.frame.to_le_bytes());
        bytes
    }
}
