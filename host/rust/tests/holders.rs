//! Who holds a page: lookups add a holder, `release` takes one away, and a page that has some is not evicted.
use page_cache::{sys, CacheError, Code, ListedPage, Operation, Page, PageCache, PageCacheKey, PageHandle, Record, SpillResult};

const KEY: PageCacheKey = PageCacheKey::new(5);
const OTHER: PageCacheKey = PageCacheKey::new(6);
const HANDLE: PageHandle = PageHandle(50);
const MOST: u16 = u16::MAX;

/// A loaded page with so many holders.
fn held_by(holders: u16) -> Page {
    Page { holders, ..Page::loaded() }
}

/// A pool with room for one page of four, which this is.
fn holding(page: Page) -> PageCache<'static> {
    let mut cache = PageCache::new(4, 1).unwrap();
    cache.insert(KEY, HANDLE, page).unwrap();
    cache
}

/// The page under the key.
fn listed(cache: &PageCache, key: PageCacheKey) -> ListedPage {
    *cache.list().unwrap().iter().find(|page| page.key == key).expect("the page is there")
}

fn holders(cache: &PageCache) -> u16 {
    listed(cache, KEY).page.holders
}

/// Every word of the memory.
fn words(cache: &PageCache) -> Vec<u64> {
    let memory = cache.memory();
    let places = memory.by_key().iter().chain(memory.by_handle()).map(|&slot| u64::from(slot));
    [memory.slots(), memory.marks(), &memory.head()].concat().into_iter().chain(places).collect()
}

type Lookup = fn(&mut PageCache) -> Result<Option<PageHandle>, CacheError>;
type Insertion = fn(&mut PageCache) -> Result<(), CacheError>;

/// The three ways to look a page up.
const LOOKUPS: [Lookup; 3] = [|cache| cache.get(KEY), |cache| cache.peek(KEY, true), |cache| cache.peek(KEY, false)];

#[test]
fn lookups_add_holders_and_releases_take_them_away() {
    let mut cache = holding(Page::loaded());
    for (added, lookup) in LOOKUPS.iter().enumerate() {
        assert_eq!(lookup(&mut cache), Ok(Some(HANDLE)));
        assert_eq!(usize::from(holders(&cache)), added + 1);
    }
    for left in (0..LOOKUPS.len()).rev() {
        assert_eq!(cache.release(KEY), Ok(()));
        assert_eq!(usize::from(holders(&cache)), left);
    }
    // a touch each of `get` and of the peek that was asked for one, and none of a release
    assert_eq!(listed(&cache, KEY).uses, 2);
    assert_eq!(cache.release(KEY), Err(CacheError::HolderLimit));
}

#[test]
fn a_page_that_is_held_keeps_its_place_and_its_uses() {
    for lookup in LOOKUPS {
        let mut cache = holding(Page::loaded());
        lookup(&mut cache).unwrap();
        let page = listed(&cache, KEY);
        assert_eq!(cache.evict_one(), Err(CacheError::Full));
        assert_eq!(cache.insert(OTHER, PageHandle(60), Page::loaded()), Err(CacheError::Full));
        assert_eq!(listed(&cache, KEY), page, "no use was taken");
        cache.release(KEY).unwrap();
        cache.insert(OTHER, PageHandle(60), Page::loaded()).unwrap();
        assert_eq!((cache.last().passed, cache.listed()), (u64::from(page.uses), &[HANDLE][..]));
    }
}

#[test]
fn a_page_that_is_held_is_not_selected_for_a_spill() {
    let mut cache = PageCache::new(4, 1).unwrap();
    for (key, handle) in [(KEY, HANDLE), (OTHER, PageHandle(60))] {
        cache.force_insert_page(key, handle, Page::with(Page::LOADED | Page::DIRTY)).unwrap();
    }
    cache.get(KEY).unwrap();
    assert_eq!(cache.check_spill(2), Ok(SpillResult::PagesToSpill(vec![PageHandle(60)])));
    cache.release(KEY).unwrap();
    assert_eq!(cache.check_spill(2), Ok(SpillResult::PagesToSpill(vec![HANDLE, PageHandle(60)])));
}

/// One by one up to the limit, and back.
#[test]
fn as_many_holders_as_there_can_be() {
    let mut cache = holding(Page::loaded());
    for _ in 0..MOST {
        assert_eq!(cache.get(KEY), Ok(Some(HANDLE)));
    }
    assert_eq!((holders(&cache), cache.get(KEY)), (MOST, Err(CacheError::HolderLimit)));
    for _ in 0..MOST {
        assert_eq!(cache.release(KEY), Ok(()));
    }
    assert_eq!((holders(&cache), cache.release(KEY)), (0, Err(CacheError::HolderLimit)));
}

#[test]
fn a_refused_holder_alters_nothing() {
    for lookup in LOOKUPS {
        let mut cache = holding(held_by(MOST));
        let before = words(&cache);
        assert_eq!(lookup(&mut cache), Err(CacheError::HolderLimit));
        assert_eq!((cache.last().value, cache.last().passed, cache.last().held), (0, 0, 1));
        assert_eq!(cache.listed(), []);
        assert_eq!(words(&cache), before);
        // who asks whether the key is there isn't refused
        assert_eq!(cache.contains_key(KEY), Ok(true));
        assert_eq!(words(&cache), before);
    }
    let mut cache = holding(held_by(0));
    let before = words(&cache);
    assert_eq!(cache.release(KEY), Err(CacheError::HolderLimit));
    assert_eq!(words(&cache), before);
}

/// Deletion doesn't look at holders, and a page that is deleted wasn't found.
#[test]
fn a_stale_page_is_deleted_by_get_whatever_its_holders() {
    for holders in [0, 1, MOST] {
        let mut cache = holding(Page { holders, ..Page::default() });
        assert_eq!((cache.get(KEY), cache.listed()), (Ok(None), &[HANDLE][..]));
        assert_eq!((cache.len(), cache.release(KEY)), (0, Err(CacheError::Absent)));

        let mut cache = holding(Page { holders, pins: 1, ..Page::default() });
        let before = words(&cache);
        assert_eq!(cache.get(KEY), Err(CacheError::Pinned { pgno: 5 }));
        assert_eq!(words(&cache), before);
    }
}

#[test]
fn a_stale_page_is_found_by_peek_and_held() {
    for touch in [false, true] {
        let mut cache = holding(Page::default());
        assert_eq!((cache.peek(KEY, touch), holders(&cache)), (Ok(Some(HANDLE)), 1));
        assert_eq!(cache.release(KEY), Ok(()));
        assert_eq!(cache.release(KEY), Err(CacheError::HolderLimit));

        let mut cache = holding(Page { holders: MOST, ..Page::default() });
        assert_eq!(cache.peek(KEY, touch), Err(CacheError::HolderLimit));
    }
}

/// Whatever the page is, a release alters its holders and nothing else.
#[test]
fn a_release_of_any_page() {
    let pages = [1, 5].into_iter().flat_map(|key| (0..32).map(move |flags| (PageCacheKey::new(key), flags)));
    for (key, flags) in pages {
        let mut cache = PageCache::new(4, 2).unwrap();
        cache.insert(OTHER, PageHandle(60), Page::loaded()).unwrap();
        cache.insert(key, HANDLE, Page { flags, pins: 2, holders: 3, cells: 4, frame: 7 }).unwrap();
        let (mut wanted, head) = (cache.list().unwrap(), cache.memory().head());
        assert_eq!(cache.release(key), Ok(()));
        assert_eq!((cache.last().value, cache.last().passed, cache.listed()), (0, 0, &[][..]));
        wanted[1].page.holders = 2;
        assert_eq!((cache.list().unwrap(), cache.memory().head()), (wanted, head), "{key:?}, flags {flags}");
    }
}

/// A lookup's holder is lost if another page comes under its key: the release takes from that one.
#[test]
fn a_release_goes_by_key() {
    let mut cache = holding(Page::loaded());
    cache.get(KEY).unwrap();
    cache.force_upsert_page(KEY, PageHandle(51), Page::loaded()).unwrap();
    assert_eq!(cache.release(KEY), Err(CacheError::HolderLimit));
    cache.force_upsert_page(KEY, PageHandle(52), held_by(2)).unwrap();
    assert_eq!((cache.release(KEY), holders(&cache)), (Ok(()), 1));

    let mut cache = holding(Page::loaded());
    cache.get(KEY).unwrap();
    cache.delete(KEY).unwrap();
    assert_eq!(cache.release(KEY), Err(CacheError::Absent));
    cache.insert(KEY, HANDLE, held_by(1)).unwrap();
    assert_eq!((cache.release(KEY), holders(&cache)), (Ok(()), 0));
}

#[test]
fn an_insertion_of_a_page_that_is_there_holds_nothing() {
    let insertions: [Insertion; 2] =
        [|cache| cache.insert(KEY, HANDLE, held_by(7)), |cache| cache.force_insert_page(KEY, HANDLE, held_by(7))];
    for insert in insertions {
        let mut cache = holding(Page::loaded());
        assert_eq!(insert(&mut cache), Err(CacheError::KeyExists));
        assert_eq!((listed(&cache, KEY).uses, holders(&cache)), (1, 0));
    }
}

#[test]
fn a_written_record_sets_the_holders() {
    let mut cache = holding(Page::loaded());
    cache.get(KEY).unwrap();
    assert_eq!(cache.write_record(KEY, Page::loaded()), Ok(true));
    assert_eq!(cache.release(KEY), Err(CacheError::HolderLimit));
    assert_eq!(cache.write_record(KEY, held_by(2)), Ok(true));
    assert_eq!((cache.release(KEY), holders(&cache)), (Ok(()), 1));
}

/// A list is lent to `get`, which may delete; `peek` and a release don't look at it.
#[test]
fn a_list_too_short_is_told_before_the_holders() {
    let (mut slots, mut by_key, mut by_handle, mut marks) = ([0; sys::SLOT_WORDS], [0; 1], [0; 1], [0; 1]);
    let (mut head, mut answer) = ([0; sys::HEAD], [0; sys::ANSWER]);
    assert_eq!(sys::create(&mut slots, &mut by_key, &mut by_handle, &mut marks, &mut head, 1), Code::Done);
    let mut apply = |record: Record, list: &mut [u32]| {
        let record = record.with_key(KEY).bytes();
        sys::apply(&mut slots, &mut by_key, &mut by_handle, &mut marks, &mut head, list, &record, &mut answer)
    };
    assert_eq!(apply(Record::new(Operation::Insert).with_page(held_by(MOST)), &mut []), Code::Done);
    assert_eq!(apply(Record::new(Operation::Get), &mut []), Code::ShortList);
    assert_eq!(apply(Record::new(Operation::Get), &mut [0]), Code::HolderLimit);
    assert_eq!(apply(Record::new(Operation::Peek), &mut []), Code::HolderLimit);
    assert_eq!(apply(Record::new(Operation::Release), &mut []), Code::Done);
    assert_eq!(apply(Record::new(Operation::Peek), &mut []), Code::Done);
    assert_eq!(apply(Record::new(Operation::Peek), &mut []), Code::HolderLimit);
}
