//! The unchanged Rust, with the oracle's stand-ins for pages.
use crate::workload::Load;
use oracle::record::PageRecord;
use oracle::storage::page_cache::{PageCache, PageCacheKey};
use oracle::storage::pager::{take_removed, Page, PageRef};
use page_cache::{Operation, Record};
use std::hint::black_box;
use std::sync::Arc;

/// A call with the page that it brings, which is made before the calls are timed.
struct Call {
    operation: Operation,
    key: PageCacheKey,
    page: Option<PageRef>,
}

fn prepared(record: &Record) -> Call {
    let page = PageRecord { flags: record.page.flags, ..PageRecord::default() };
    Call {
        operation: record.operation,
        key: PageCacheKey::new(record.key as usize),
        page: (record.operation == Operation::Insert).then(|| Arc::new(Page::new(record.key, record.handle, &page))),
    }
}

pub struct Cache {
    cache: PageCache,
    calls: Vec<Call>,
    /// What the last lookup found. The next one lets go of it, or its release before that.
    found: Option<PageRef>,
}

impl Cache {
    pub fn ready(pages: usize, load: &Load) -> Self {
        let mut cache = Cache { cache: PageCache::new(pages), calls: load.held.iter().map(prepared).collect(), found: None };
        cache.run();
        assert_eq!(cache.cache.len(), load.held.len());
        take_removed();
        cache.calls = load.calls.iter().map(prepared).collect();
        cache
    }

    pub fn run(&mut self) {
        for call in &mut self.calls {
            match call.operation {
                Operation::Insert => drop(black_box(self.cache.insert(call.key, call.page.take().expect("a page")))),
                Operation::Get => self.found = black_box(self.cache.get(&call.key)).expect("no page is refused"),
                Operation::Release => drop(self.found.take().expect("a lookup was before it")),
                Operation::Delete => drop(black_box(self.cache.delete(call.key))),
                other => panic!("{other:?}"),
            }
        }
    }

    /// Both caches hold as many pages after the load.
    pub fn check(&self, load: &Load, held: usize) {
        take_removed();
        assert_eq!(self.cache.len(), held, "{}", load.name);
    }
}
