//! The Rust's calls, and document 01's codes for what they return.

use crate::answer::code;
use crate::record::{Operation, Record};
use crate::storage::page_cache::{
    inspect, CacheError, CacheResizeResult, PageCache, PageCacheKey, SpillResult,
};
use crate::storage::pager::PageRef;

/// What a call gives beside removals and passed pages, which are measured.
pub struct Reply {
    pub code: u8,
    pub value: u64,
    /// Handles that a spill selected.
    pub selected: Vec<u32>,
    /// The clone that a hit handed out.
    pub found: Option<PageRef>,
}

impl Reply {
    pub fn new(code: u8, value: u64) -> Self {
        Self {
            code,
            value,
            selected: Vec::new(),
            found: None,
        }
    }
}

/// The three insertions.
pub fn call_insertion(
    cache: &mut PageCache,
    operation: Operation,
    key: u32,
    page: PageRef,
) -> Reply {
    let key = PageCacheKey::new(key as usize);
    done_or_refused(match operation {
        Operation::Insert => cache.insert(key, page),
        Operation::ForceInsert => cache.force_insert_page(key, page),
        Operation::ForceUpsert => cache.force_upsert_page(key, page),
        _ => unreachable!("only insertions come here"),
    })
}

/// The calls that need nothing of the caller's own.
pub fn call(cache: &mut PageCache, operation: Operation, record: &Record) -> Reply {
    let key = PageCacheKey::new(record.key as usize);
    let number = record.number as usize;
    let option = record.option == 1;
    match operation {
        Operation::Get => match cache.get(&key) {
            Ok(page) => found_or_absent(page),
            Err(error) => refused(error),
        },
        Operation::Peek => found_or_absent(cache.peek(&key, option)),
        Operation::Delete => done_or_refused(cache.delete(key)),
        Operation::Resize => match cache.resize(number) {
            CacheResizeResult::Done => Reply::new(code::DONE, 0),
            CacheResizeResult::PendingEvictions => Reply::new(code::PENDING_EVICTIONS, 0),
        },
        Operation::Truncate => done_or_refused(cache.truncate(number)),
        Operation::RemoveFrames => {
            done_or_refused(cache.delete_clean_pages_after_wal_frame(record.number))
        }
        Operation::Clear => done_or_refused(cache.clear(option)),
        Operation::NotifyDirty => {
            cache.notify_page_dirty(key);
            Reply::new(code::DONE, 0)
        }
        Operation::NotifySpilled => {
            cache.notify_page_spilled(key);
            Reply::new(code::DONE, 0)
        }
        Operation::CheckSpill => spill(cache, number),
        Operation::EvictOne => done_or_refused(inspect::evict_one(cache)),
        Operation::SetSpill => {
            cache.set_spill_enabled(option);
            Reply::new(code::DONE, 0)
        }
        _ => unreachable!("create, insertions, write_record and release go elsewhere"),
    }
}

/// The pin guards are dropped once their handles are read.
fn spill(cache: &PageCache, most: usize) -> Reply {
    match cache.check_spill(most) {
        SpillResult::NotNeeded => Reply::new(code::NOT_NEEDED, 0),
        SpillResult::CacheFull => Reply::new(code::NONE_SELECTED, 0),
        SpillResult::PagesToSpill(guards) => Reply {
            selected: guards.iter().map(|page| page.get().handle()).collect(),
            ..Reply::new(code::DONE, guards.len() as u64)
        },
        SpillResult::Disabled => panic!("the Rust never builds SpillResult::Disabled"),
    }
}

fn found_or_absent(page: Option<PageRef>) -> Reply {
    match page {
        Some(page) => Reply {
            value: page.get().handle().into(),
            found: Some(page),
            ..Reply::new(code::DONE, 0)
        },
        None => Reply::new(code::ABSENT, 0),
    }
}

fn done_or_refused(result: Result<(), CacheError>) -> Reply {
    match result {
        Ok(()) => Reply::new(code::DONE, 0),
        Err(error) => refused(error),
    }
}

fn refused(error: CacheError) -> Reply {
    match error {
        CacheError::Locked { pgno } => Reply::new(code::LOCKED, pgno as u64),
        CacheError::Dirty { pgno } => Reply::new(code::DIRTY, pgno as u64),
        CacheError::Pinned { pgno } => Reply::new(code::PINNED, pgno as u64),
        CacheError::Full => Reply::new(code::FULL, 0),
        CacheError::KeyExists => Reply::new(code::KEY_EXISTS, 0),
        CacheError::InternalError(message) => {
            assert_eq!(message, "Cannot evict from empty cache");
            Reply::new(code::EMPTY, 0)
        }
    }
}
