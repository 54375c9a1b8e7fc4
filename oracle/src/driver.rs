//! Turns a replay record into a call of the Rust cache, and what the cache did
//! into document 01's answer.
//!
//! The driver plays the caller: it keeps the clones that the Rust hands out, knows
//! which handle stands under which key, and refuses with a mark what the Rust has
//! no answer for. It never works out an answer.

use crate::answer::{code, Answer, Mark, Outcome, State};
use crate::assert::take_passed;
use crate::call::{call, call_insertion, Reply};
use crate::record::{flag, Operation, PageRecord, Record};
use crate::storage::page_cache::{inspect, PageCache};
use crate::storage::pager::{take_removed, Page, PageRef, Removed};
use crate::sync::Arc;
use rustc_hash::FxHashMap;

/// Slots of the replay program's pool.
pub const SLOTS: u64 = 256;

// Limits of 64 bits go into the Rust as `usize`.
const _: () = assert!(usize::BITS == 64);

/// How `truncate`, `remove_frames` and `clear` list what they removed.
#[derive(Clone, Copy, Debug, PartialEq, Eq)]
pub enum WalkOrder {
    /// As the Rust removed them, in the order of its map.
    AsRemoved,
    /// By ascending key, 01's changed order.
    ByKey,
}

/// A page of the caller that stands in the cache.
struct CallersPage {
    key: u32,
    /// The clones that the caller keeps, as many as the page has holders.
    holders: Vec<PageRef>,
}

pub struct Driver {
    cache: Option<PageCache>,
    /// By handle.
    pages: FxHashMap<u32, CallersPage>,
    order: WalkOrder,
}

impl Driver {
    pub fn new(order: WalkOrder) -> Self {
        Self {
            cache: None,
            pages: FxHashMap::default(),
            order,
        }
    }

    /// Makes the record's call, unless the Rust has no answer for it.
    pub fn apply(&mut self, record: &Record) -> Outcome {
        if let Some(mark) = self.mark(record) {
            return Outcome::Mark(mark);
        }
        let operation = record
            .good_operation()
            .expect("a bad operation has its mark");
        // Measures begin here: another cache may have run on this thread.
        take_removed();
        take_passed();
        let mut reply = match operation {
            Operation::Create => self.create(record.number as usize),
            operation if operation.is_insertion() => return self.insert(operation, record),
            Operation::WriteRecord => self.write_record(record.key, &record.page()),
            Operation::Release => self.release(record.key),
            operation => call(self.expect_cache_mut(), operation, record),
        };
        if let Some(clone) = reply.found.take() {
            self.clones_of(clone.get().handle()).push(clone);
        }
        let removed = take_removed();
        self.forget(&removed);
        self.answer(operation, reply, removed)
    }

    /// The state after the last call, or nothing before the first creation.
    pub fn state(&self) -> Option<State> {
        self.cache.as_ref().map(|cache| State {
            capacity: cache.capacity(),
            spill_enabled: cache.is_spill_enabled(),
            estimate: inspect::estimate(cache),
            ring: inspect::ring(cache),
        })
    }

    /// The handle and record of the page under a key. Its holders are those that
    /// the Rust counts.
    ///
    /// # Panics
    /// If they aren't the clones that the caller keeps.
    pub fn stored(&self, key: u32) -> Option<(u32, PageRecord)> {
        let page = inspect::page(self.cache.as_ref()?, key)?;
        let handle = page.get().handle();
        let holders = inspect::holders(page);
        assert_eq!(
            holders,
            self.pages[&handle].holders.len(),
            "the Rust's count of page {key}'s holders isn't the caller's"
        );
        let holders = u16::try_from(holders).expect("one holder too many has its mark");
        Some((handle, page.record(holders)))
    }

    /// The key under which a handle stands.
    pub fn key_of(&self, handle: u32) -> Option<u32> {
        self.pages.get(&handle).map(|page| page.key)
    }

    /// The reason not to ask the Rust, in 01's order of tests.
    pub fn mark(&self, record: &Record) -> Option<Mark> {
        let Some(operation) = record.good_operation() else {
            return Some(Mark::Record);
        };
        if self.cache.is_none() && operation != Operation::Create {
            return Some(Mark::NoCache);
        }
        if operation.takes_capacity() && record.number > SLOTS {
            return Some(Mark::Capacity);
        }
        if operation.takes_page_record() && record.flags > flag::ALL {
            return Some(Mark::Flags);
        }
        match operation {
            Operation::Get | Operation::Peek | Operation::Release => {
                self.holders_mark(operation, record.key)
            }
            _ if operation.is_insertion() => self.insertion_mark(operation, record),
            _ => None,
        }
    }

    /// A hit adds a holder and a release takes one away. A lookup of a stale page is no
    /// hit: the page is deleted.
    fn holders_mark(&self, operation: Operation, key: u32) -> Option<Mark> {
        let (_, stored) = self.stored(key)?;
        let out_of_range = match operation {
            Operation::Get => !stored.is_stale() && stored.holders == u16::MAX,
            Operation::Peek => stored.holders == u16::MAX,
            _ => stored.holders == 0,
        };
        out_of_range.then_some(Mark::Holders)
    }

    fn insertion_mark(&self, operation: Operation, record: &Record) -> Option<Mark> {
        if self
            .key_of(record.handle)
            .is_some_and(|key| key != record.key)
        {
            return Some(Mark::HandleTaken);
        }
        let Some((handle, stored)) = self.stored(record.key) else {
            let forced = operation != Operation::Insert;
            return (forced && self.no_slot_can_be_had()).then_some(Mark::Slots);
        };
        let stays_as_it_is = operation != Operation::ForceUpsert && !stored.is_stale();
        if stays_as_it_is {
            (handle != record.handle).then_some(Mark::OtherPage)
        } else {
            (handle == record.handle && stored != record.page()).then_some(Mark::OtherRecord)
        }
    }

    /// Whether the Rust, told to insert one more page, would hold 257.
    fn no_slot_can_be_had(&self) -> bool {
        let cache = self.expect_cache();
        cache.len() as u64 == SLOTS && (cache.capacity() == 0 || !inspect::some_page_may_go(cache))
    }

    /// Whether the answer can't depend on the order of the Rust's map: nothing is
    /// refused in a walk that removes, and all spillable pages fit the maximum.
    /// A record that gets a mark isn't a question here.
    pub fn is_exact(&self, record: &Record) -> bool {
        let Some(cache) = self.cache.as_ref() else {
            return true;
        };
        let mut pages = inspect::pages(cache);
        let undeletable = |page: &PageRef| page.is_locked() || page.is_dirty() || page.is_pinned();
        match record.good_operation() {
            Some(Operation::Truncate) => {
                !pages.any(|(key, page)| u64::from(key) > record.number && undeletable(page))
            }
            Some(Operation::RemoveFrames) => !pages.any(|(_, page)| {
                let taken =
                    !page.is_dirty() && page.has_wal_tag() && page.wal_tag_pair().0 > record.number;
                taken && undeletable(page)
            }),
            Some(Operation::Clear) => record.option == 1 || !pages.any(|(_, page)| page.is_dirty()),
            // With a maximum of 0 the Rust walks nothing.
            Some(Operation::CheckSpill) => {
                record.number == 0
                    || !cache.needs_spill()
                    || inspect::count_spillable(cache) as u64 <= record.number
            }
            _ => true,
        }
    }

    fn expect_cache(&self) -> &PageCache {
        self.cache
            .as_ref()
            .expect("a call before creation has its mark")
    }

    fn expect_cache_mut(&mut self) -> &mut PageCache {
        self.cache
            .as_mut()
            .expect("a call before creation has its mark")
    }

    fn create(&mut self, capacity: usize) -> Reply {
        self.cache = Some(PageCache::new(capacity));
        self.pages.clear();
        Reply::new(code::DONE, 0)
    }

    /// The caller changes its own page; the cache isn't called.
    fn write_record(&mut self, key: u32, record: &PageRecord) -> Reply {
        let cache = self
            .cache
            .as_ref()
            .expect("a call before creation has its mark");
        let Some(page) = inspect::page(cache, key) else {
            return Reply::new(code::ABSENT, 0);
        };
        page.write(record);
        let callers = self
            .pages
            .get_mut(&page.get().handle())
            .expect("each held page is known to the caller");
        callers
            .holders
            .resize_with(record.holders.into(), || page.clone());
        Reply::new(code::DONE, 0)
    }

    /// The caller drops one of its clones; the cache isn't called.
    fn release(&mut self, key: u32) -> Reply {
        let Some(handle) = self.stored_handle(key) else {
            return Reply::new(code::ABSENT, 0);
        };
        let clone = self.clones_of(handle).pop();
        drop(clone.expect("a page without a holder has its mark"));
        Reply::new(code::DONE, 0)
    }

    /// The clones that the caller keeps of a page in the cache.
    fn clones_of(&mut self, handle: u32) -> &mut Vec<PageRef> {
        let callers = self.pages.get_mut(&handle);
        &mut callers
            .expect("each held page is known to the caller")
            .holders
    }

    /// The three insertions. The holders' clones exist before the call, so that
    /// the Rust sees the right strong count at any time.
    fn insert(&mut self, operation: Operation, record: &Record) -> Outcome {
        let old_handle = self.stored(record.key).map(|(handle, _)| handle);
        let (page, holders) = if old_handle == Some(record.handle) {
            self.same_page_again(record)
        } else {
            new_page(record)
        };
        let reply = call_insertion(self.expect_cache_mut(), operation, record.key, page);
        let removed = take_removed();
        self.forget(&removed);

        let new_handle = self.stored_handle(record.key);
        let replaced = old_handle.filter(|&old| {
            operation == Operation::ForceUpsert
                && reply.code == code::DONE
                && !removed.iter().any(|gone| gone.handle == old)
        });
        if let Some(old) = replaced {
            self.pages.remove(&old);
        }
        if new_handle == Some(record.handle) {
            let key = record.key;
            self.pages
                .insert(record.handle, CallersPage { key, holders });
        }
        let value = replaced.map_or(reply.value, u64::from);
        self.answer(operation, Reply { value, ..reply }, removed)
    }

    fn stored_handle(&self, key: u32) -> Option<u32> {
        inspect::page(self.expect_cache(), key).map(|page| page.get().handle())
    }

    /// The page that already stands under the record's key, with its holders.
    fn same_page_again(&mut self, record: &Record) -> (PageRef, Vec<PageRef>) {
        let page = inspect::page(self.expect_cache(), record.key)
            .expect("the key is present")
            .clone();
        let callers = self
            .pages
            .remove(&record.handle)
            .expect("each held page is known to the caller");
        (page, callers.holders)
    }

    /// Lets go of the pages that the cache removed.
    fn forget(&mut self, removed: &[Removed]) {
        for page in removed {
            self.pages.remove(&page.handle);
        }
    }

    fn answer(&self, operation: Operation, reply: Reply, mut removed: Vec<Removed>) -> Outcome {
        if self.order == WalkOrder::ByKey && operation.removes_in_a_walk() {
            removed.sort_by_key(|page| page.key);
        }
        let list = if operation == Operation::CheckSpill {
            reply.selected
        } else {
            removed.iter().map(|page| page.handle).collect()
        };
        let cache = self.expect_cache();
        Outcome::Answer(Answer {
            code: reply.code,
            value: reply.value,
            passed: take_passed(),
            held: cache.len(),
            hand: inspect::hand_key(cache),
            list,
        })
    }
}

fn new_page(record: &Record) -> (PageRef, Vec<PageRef>) {
    let page = Arc::new(Page::new(record.key, record.handle, &record.page()));
    let holders = vec![page.clone(); record.holders.into()];
    (page, holders)
}
