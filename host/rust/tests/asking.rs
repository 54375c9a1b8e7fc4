//! What can be asked of a cache without altering it: all over the oracle's sample, whose pools are of every kind.
use page_cache::{sys, Answer, CacheError, ListedPage, Memory, Page, PageCache, PageCacheKey, PageHandle, Record};

const RECORDS: &[u8] = include_bytes!("../../../oracle/sample/records.bin");

/// All that can be seen of a cache, in numbers.
fn seen(cache: &PageCache) -> (Vec<u64>, Answer) {
    let memory = cache.memory();
    let mut numbers = [memory.slots(), memory.marks(), &memory.head()].concat();
    numbers.extend(memory.by_key().iter().chain(memory.by_handle()).map(|&slot| u64::from(slot)));
    numbers.extend(cache.listed().iter().map(|handle| u64::from(handle.0)));
    (numbers, cache.last())
}

/// Document 01's rule 13, and the readings of it: counted without wrapping.
fn needs_spill(cache: &PageCache, pages: &[ListedPage]) -> bool {
    let (held, capacity) = (pages.len() as u64, cache.capacity());
    let threshold = (capacity * 90 / 100).max(1);
    let estimate = cache.memory().head()[sys::head::ESTIMATE];
    if !cache.is_spill_enabled() || held < threshold {
        return false;
    }
    let needed = held - threshold;
    estimate + capacity.saturating_sub(held) < needed && (pages.iter().filter(|page| may_go(page)).count() as u64) < needed
}

fn may_go(page: &ListedPage) -> bool {
    let ListedPage { key, page: Page { flags, pins, holders, .. }, .. } = *page;
    let has = |flag| flags & flag != 0;
    key.0 != 1 && (!has(Page::DIRTY) || has(Page::SPILLED)) && !has(Page::LOCKED) && pins == 0 && holders == 0
}

/// Whether a peek finds the key. It is made on a copy, since it adds a holder; a page with as many as there can be is there too.
fn is_found(cache: &PageCache, key: PageCacheKey) -> bool {
    let memory = cache.memory();
    let (mut slots, mut by_key) = (memory.slots().to_vec(), memory.by_key().to_vec());
    let (mut by_handle, mut marks) = (memory.by_handle().to_vec(), memory.marks().to_vec());
    let lent = Memory::lent(&mut slots, &mut by_key, &mut by_handle, &mut marks, memory.head());
    match PageCache::over(lent).peek(key, false) {
        Ok(found) => found.is_some(),
        Err(error) => {
            assert_eq!(error, CacheError::HolderLimit);
            true
        }
    }
}

#[test]
fn questions_alter_nothing_and_are_answered_right() {
    let mut cache = PageCache::new(256, 0).unwrap();
    let (mut needed, mut switched_off, mut absent, mut listed) = (0, 0, 0, 0);
    for record in RECORDS.chunks(Record::LENGTH) {
        cache.apply(record);
        let before = seen(&cache);
        let pages = cache.list().unwrap();
        let key = PageCacheKey::new(u32::from_le_bytes(record[4..8].try_into().unwrap()));
        for key in pages.iter().map(|page| page.key).take(2).chain([key]) {
            let stands = is_found(&cache, key);
            assert_eq!(cache.contains_key(key), Ok(stands));
            absent += usize::from(!stands);
        }
        assert_eq!(cache.needs_spill(), Ok(needs_spill(&cache, &pages)));
        assert_eq!(seen(&cache), before);
        needed += usize::from(needs_spill(&cache, &pages));
        switched_off += usize::from(!cache.is_spill_enabled());
        listed += cache.listed().len();
    }
    // the sample has both answers to each question, and calls whose handles a question might have lost
    assert!(needed > 50 && switched_off > 50 && absent > 50 && listed > 50, "{needed} {switched_off} {absent} {listed}");
}

#[test]
fn the_switch_is_the_heads() {
    let mut cache = PageCache::new(4, 2).unwrap();
    assert!(cache.is_spill_enabled());
    cache.set_spill_enabled(false).unwrap();
    assert!(!cache.is_spill_enabled());
}

/// A pool that is taken out of its cache, seen part by part, is a pool again.
#[test]
fn the_parts_of_the_memory_are_all_of_it() {
    let mut cache = PageCache::new(70, 40).unwrap();
    for n in 2..60 {
        cache.insert(PageCacheKey::new(n), PageHandle(1000 - n), Page::loaded()).unwrap();
    }
    let memory = cache.memory();
    let (mut slots, mut by_key) = (memory.slots().to_vec(), memory.by_key().to_vec());
    let (mut by_handle, mut marks, head) = (memory.by_handle().to_vec(), memory.marks().to_vec(), memory.head());
    assert_eq!((slots.len(), by_key.len(), by_handle.len(), marks.len()), (280, 70, 70, 2));
    let lent = Memory::lent(&mut slots, &mut by_key, &mut by_handle, &mut marks, head);
    let other = PageCache::over(lent);
    assert!(other.is_sound());
    assert_eq!(other.list(), cache.list());
}

#[test]
fn a_cache_can_be_printed() {
    let mut cache = PageCache::new(4096, 2).unwrap();
    cache.insert(PageCacheKey::new(5), PageHandle(50), Page::loaded()).unwrap();
    cache.truncate(0).unwrap();
    let text = format!("{cache:?}");
    for part in ["slot_words: 16384", "capacity: 2", "held: 0", "code: Done", "listed: [PageHandle(50)]"] {
        assert!(text.contains(part), "{part} is not in {text}");
    }
    assert!(text.len() < 400, "it is short");
    assert!(format!("{:?}", cache.into_memory()).contains("by_key: 4096"));
}
