//! Reads the cache's private fields and calls its private functions. It changes
//! nothing by itself.

use super::{CacheError, PageCache, PageCacheEntry, PageCacheKey, PageRef};
use crate::sync::Arc;

/// One page of the ring.
#[derive(Clone, Copy, Debug, PartialEq, Eq)]
pub struct RingEntry {
    pub key: u32,
    pub handle: u32,
    pub uses: u8,
    pub holders: usize,
}

/// The ring in sweep order, from the hand.
///
/// # Panics
/// If following the queue from the hand doesn't come back to it after as many
/// entries as the map has: then the Rust itself would be broken.
pub fn ring(cache: &PageCache) -> Vec<RingEntry> {
    let mut entries = Vec::with_capacity(cache.len());
    if cache.clock_hand.is_null() {
        assert_eq!(cache.len(), 0, "pages are held and there is no hand");
        return entries;
    }
    // The hand is an entry of the queue, which owns it.
    let mut cursor = unsafe { cache.queue.cursor_from_ptr(cache.clock_hand) };
    loop {
        let entry = cursor.get().expect("the queue has an entry here");
        entries.push(ring_entry(entry));
        cursor.move_next();
        if cursor.is_null() {
            // Past the queue's end comes its front.
            cursor.move_next();
        }
        let at: *const PageCacheEntry = cursor.get().expect("the queue isn't empty");
        if std::ptr::eq(at, cache.clock_hand) {
            break;
        }
    }
    assert_eq!(entries.len(), cache.len(), "map and ring differ in length");
    entries
}

fn ring_entry(entry: &PageCacheEntry) -> RingEntry {
    RingEntry {
        key: entry.key.0 as u32,
        handle: entry.page.get().handle(),
        uses: entry.ref_bit,
        holders: holders(&entry.page),
    }
}

/// The key of the hand's page.
pub fn hand_key(cache: &PageCache) -> Option<u32> {
    // The hand is null or an entry of the queue.
    unsafe { cache.clock_hand.as_ref() }.map(|entry| entry.key.0 as u32)
}

/// The evictable estimate.
pub fn estimate(cache: &PageCache) -> usize {
    cache.evictable_count
}

/// The page under a key, without a clone, which would count as a holder.
pub fn page(cache: &PageCache, key: u32) -> Option<&PageRef> {
    let entry = cache.map.get(&PageCacheKey(key as usize))?;
    // The map's pointers are entries of the queue, which owns them.
    Some(unsafe { &(**entry).page })
}

/// How many hold a page beside the cache, by the count that the Rust goes by.
pub fn holders(page: &PageRef) -> usize {
    Arc::strong_count(page) - 1
}

/// The held pages with their keys, in the order in which the Rust walks its map.
pub fn pages(cache: &PageCache) -> impl Iterator<Item = (u32, &PageRef)> {
    // As in `page`.
    cache
        .map
        .iter()
        .map(|(key, &entry)| (key.0 as u32, unsafe { &(*entry).page }))
}

/// Whether a sweep could take some page, as the Rust judges it.
pub fn some_page_may_go(cache: &PageCache) -> bool {
    pages(cache).any(|(_, page)| PageCache::evictable(page))
}

/// How many pages could be selected, as the Rust judges it.
pub fn count_spillable(cache: &PageCache) -> usize {
    pages(cache)
        .filter(|(_, page)| PageCache::spillable(page))
        .count()
}

/// One sweep; the Rust keeps it to itself.
pub fn evict_one(cache: &mut PageCache) -> Result<(), CacheError> {
    cache.evict_one()
}
