//! Stand-in for the page: document 01's page record, as an object that the
//! cache and its caller share.
//!
//! A page has no bytes here. `take_buffer` notes which page gave its buffer
//! away instead: the cache calls it once for each page that it removes, so the
//! notes are the removals in their order.

use crate::record::{flag, PageRecord};
use crate::sync::atomic::{AtomicU64, AtomicU8, AtomicUsize, Ordering::SeqCst};
use crate::sync::Arc;
use std::cell::RefCell;

pub type PageRef = Arc<Page>;

#[derive(Debug)]
pub struct Page {
    inner: PageInner,
}

#[derive(Debug)]
pub struct PageInner {
    /// The page's number, equal to its key in the cache.
    id: usize,
    /// Document 01's name for this page.
    handle: u32,
    /// Document 01's flags; turso_core's own bits differ and are never seen.
    pub flags: AtomicUsize,
    pub pin_count: AtomicUsize,
    pub overflow_cells: OverflowCells,
    /// The WAL frame, which means something only under the tag flag.
    frame: AtomicU64,
}

/// A page's bytes, of which there are none here.
pub struct Buffer;

/// Only the number of overflow cells; the cache asks whether there are any.
#[derive(Debug)]
pub struct OverflowCells(AtomicU8);

impl OverflowCells {
    pub fn is_empty(&self) -> bool {
        self.0.load(SeqCst) == 0
    }
}

/// A page that the cache removed.
#[derive(Clone, Copy, Debug, PartialEq, Eq)]
pub struct Removed {
    pub key: u32,
    pub handle: u32,
}

thread_local! {
    static REMOVED: RefCell<Vec<Removed>> = const { RefCell::new(Vec::new()) };
}

/// The pages removed on this thread since the last call of this function, in
/// the order in which the cache removed them.
pub fn take_removed() -> Vec<Removed> {
    REMOVED.with(RefCell::take)
}

impl PageInner {
    pub fn id(&self) -> usize {
        self.id
    }

    pub fn handle(&self) -> u32 {
        self.handle
    }

    pub fn take_buffer(&self) -> Buffer {
        let removed = Removed {
            key: self.id as u32,
            handle: self.handle,
        };
        REMOVED.with(|log| log.borrow_mut().push(removed));
        Buffer
    }
}

impl Page {
    /// A page of the caller. The record's holders are not part of the page: the
    /// caller keeps that many clones of the `PageRef`.
    pub fn new(key: u32, handle: u32, record: &PageRecord) -> Self {
        let page = Self {
            inner: PageInner {
                id: key as usize,
                handle,
                flags: AtomicUsize::new(0),
                pin_count: AtomicUsize::new(0),
                overflow_cells: OverflowCells(AtomicU8::new(0)),
                frame: AtomicU64::new(0),
            },
        };
        page.write(record);
        page
    }

    /// What the caller does to its own page; the cache isn't told.
    pub fn write(&self, record: &PageRecord) {
        self.inner.flags.store(record.flags.into(), SeqCst);
        self.inner.pin_count.store(record.pins.into(), SeqCst);
        self.inner
            .overflow_cells
            .0
            .store(record.overflow_cells, SeqCst);
        self.inner.frame.store(record.frame, SeqCst);
    }

    /// The record as it stands now, given the number of the caller's clones.
    pub fn record(&self, holders: u16) -> PageRecord {
        PageRecord {
            flags: self.inner.flags.load(SeqCst) as u8,
            pins: self.inner.pin_count.load(SeqCst) as u16,
            holders,
            overflow_cells: self.inner.overflow_cells.0.load(SeqCst),
            frame: self.inner.frame.load(SeqCst),
        }
    }

    pub fn get(&self) -> &PageInner {
        &self.inner
    }

    fn has(&self, flag: u8) -> bool {
        self.inner.flags.load(SeqCst) & usize::from(flag) != 0
    }

    pub fn is_loaded(&self) -> bool {
        self.has(flag::LOADED)
    }

    pub fn is_locked(&self) -> bool {
        self.has(flag::LOCKED)
    }

    pub fn is_dirty(&self) -> bool {
        self.has(flag::DIRTY)
    }

    pub fn is_spilled(&self) -> bool {
        self.has(flag::SPILLED)
    }

    pub fn has_wal_tag(&self) -> bool {
        self.has(flag::WAL_TAG)
    }

    /// The frame, and the checkpoint number that the cache ignores.
    pub fn wal_tag_pair(&self) -> (u64, u32) {
        (self.inner.frame.load(SeqCst), 0)
    }

    pub fn clear_loaded(&self) {
        self.inner
            .flags
            .fetch_and(!usize::from(flag::LOADED), SeqCst);
    }

    pub fn is_pinned(&self) -> bool {
        self.inner.pin_count.load(SeqCst) > 0
    }

    pub fn pin(&self) {
        self.inner.pin_count.fetch_add(1, SeqCst);
    }

    pub fn unpin(&self) {
        self.inner.pin_count.fetch_sub(1, SeqCst);
    }
}
