//! The cache.
use crate::answer::{Answer, CacheError, CacheResizeResult, SpillResult};
use crate::calls::{Code, Operation};
use crate::memory::Memory;
use crate::record::{ListedPage, Page, PageCacheKey, PageHandle, Record};
use crate::sys;
use std::fmt;

/// A page cache in memory of its own, or in the caller's.
///
/// One thread at a time: a call takes the cache by `&mut`, and nothing here locks.
///
/// ```
/// # use page_cache::{Page, PageCache, PageCacheKey, PageHandle};
/// let mut cache = PageCache::new(256, 200)?;
/// cache.insert(PageCacheKey(10), PageHandle(100), Page::loaded())?;
/// assert_eq!(cache.get(PageCacheKey(10))?, Some(PageHandle(100)));
/// cache.release(PageCacheKey(10))?;
/// # Ok::<(), page_cache::CacheError>(())
/// ```
pub struct PageCache<'a> {
    memory: Memory<'a>,
    /// The handles that the last call listed are in its first places.
    list: Box<[u32]>,
    last: Answer,
}

impl PageCache<'static> {
    /// A cache with a pool of `slots` slots, 1 to 4,096, and this capacity, at most `slots`.
    ///
    /// ```
    /// # use page_cache::PageCache;
    /// assert!(PageCache::new(4096, 2000).is_ok());
    /// assert!(PageCache::new(4097, 2000).is_err());
    /// ```
    pub fn new(slots: usize, capacity: u64) -> Result<Self, CacheError> {
        // more slots than a pool may have are refused, so no memory is allocated for the rest of them
        let mut cache = PageCache::over(Memory::owned(slots.min(sys::MAX_SLOTS + 1)));
        cache.create(capacity)?;
        Ok(cache)
    }
}

impl<'a> PageCache<'a> {
    /// The cache that this memory holds. If it holds none, every call but a creation is refused and alters nothing.
    ///
    /// ```
    /// # use page_cache::{Memory, PageCache, PageCacheKey};
    /// let (mut slots, mut by_key, mut by_handle, mut marks) = ([7; 8], [0; 2], [0; 2], [0; 1]);
    /// let mut cache = PageCache::over(Memory::lent(&mut slots, &mut by_key, &mut by_handle, &mut marks, [0; 5]));
    /// assert!(!cache.is_sound());
    /// assert!(cache.get(PageCacheKey(1)).is_err());
    /// cache.create(2)?;
    /// assert!(cache.is_sound());
    /// # Ok::<(), page_cache::CacheError>(())
    /// ```
    pub fn over(memory: Memory<'a>) -> Self {
        let list = vec![0; memory.by_key.len()].into();
        PageCache { memory, list, last: Answer::NONE }
    }

    /// Carries out the replay record that these bytes are. Every other call is made by this one.
    pub fn apply(&mut self, bytes: &[u8]) -> Answer {
        let mut numbers = [0; sys::ANSWER];
        let memory = &mut self.memory;
        let code = sys::apply(
            &mut memory.slots,
            &mut memory.by_key,
            &mut memory.by_handle,
            &mut memory.marks,
            &mut memory.head,
            &mut self.list,
            bytes,
            &mut numbers,
        );
        self.last = Answer::of(code, numbers);
        self.last
    }

    fn call(&mut self, record: Record) -> Answer {
        self.apply(&record.bytes())
    }

    /// A call that is done, or refused.
    fn done(&mut self, record: Record) -> Result<(), CacheError> {
        self.call(record).error().map_or(Ok(()), Err)
    }

    /// A call about a key that may be absent.
    fn found(&mut self, record: Record) -> Result<Option<PageHandle>, CacheError> {
        let answer = self.call(record);
        match answer.error() {
            None => Ok(Some(PageHandle(answer.value))),
            Some(CacheError::Absent) => Ok(None),
            Some(error) => Err(error),
        }
    }

    /// What the last call answered.
    pub fn last(&self) -> Answer {
        self.last
    }

    /// The handles that the last call removed, in order of removal, or selected for a spill, by key.
    ///
    /// ```
    /// # use page_cache::{Page, PageCache, PageCacheKey, PageHandle};
    /// let mut cache = PageCache::new(4, 2)?;
    /// cache.insert(PageCacheKey(5), PageHandle(50), Page::loaded())?;
    /// cache.insert(PageCacheKey(6), PageHandle(60), Page::loaded())?;
    /// cache.truncate(0)?;
    /// assert_eq!(cache.listed(), [PageHandle(50), PageHandle(60)]);
    /// # Ok::<(), page_cache::CacheError>(())
    /// ```
    pub fn listed(&self) -> &[PageHandle] {
        PageHandle::of_numbers(&self.list[..self.last.listed as usize])
    }

    /// The memory, to be looked at.
    pub fn memory(&self) -> &Memory<'a> {
        &self.memory
    }

    /// The memory, to be kept.
    pub fn into_memory(self) -> Memory<'a> {
        self.memory
    }

    /// Makes a new cache of the memory: nothing held, spill on.
    pub fn create(&mut self, capacity: u64) -> Result<(), CacheError> {
        self.done(Record::new(Operation::Create).with_number(capacity))
    }

    /// Inserts a page under an absent or stale key, and makes room for it.
    ///
    /// ```
    /// # use page_cache::{CacheError, Page, PageCache, PageCacheKey, PageHandle};
    /// let mut cache = PageCache::new(4, 1)?;
    /// cache.insert(PageCacheKey(5), PageHandle(50), Page::with(Page::LOADED | Page::DIRTY))?;
    /// assert_eq!(cache.insert(PageCacheKey(5), PageHandle(50), Page::loaded()), Err(CacheError::KeyExists));
    /// assert_eq!(cache.insert(PageCacheKey(6), PageHandle(60), Page::loaded()), Err(CacheError::Full));
    /// # Ok::<(), CacheError>(())
    /// ```
    pub fn insert(&mut self, key: PageCacheKey, handle: PageHandle, page: Page) -> Result<(), CacheError> {
        self.done(Record::new(Operation::Insert).with_key(key).with_handle(handle).with_page(page))
    }

    /// Inserts as [`PageCache::insert`] does, and beyond the capacity if no room can be made.
    pub fn force_insert_page(&mut self, key: PageCacheKey, handle: PageHandle, page: Page) -> Result<(), CacheError> {
        self.done(Record::new(Operation::ForceInsert).with_key(key).with_handle(handle).with_page(page))
    }

    /// Inserts as [`PageCache::force_insert_page`] does, or replaces the page that is there. [`Answer::value`] is then its handle.
    ///
    /// ```
    /// # use page_cache::{Page, PageCache, PageCacheKey, PageHandle};
    /// let mut cache = PageCache::new(4, 1)?;
    /// cache.insert(PageCacheKey(5), PageHandle(50), Page::loaded())?;
    /// cache.force_upsert_page(PageCacheKey(5), PageHandle(51), Page::loaded())?;
    /// assert_eq!(cache.last().value, 50);
    /// # Ok::<(), page_cache::CacheError>(())
    /// ```
    pub fn force_upsert_page(&mut self, key: PageCacheKey, handle: PageHandle, page: Page) -> Result<(), CacheError> {
        self.done(Record::new(Operation::ForceUpsert).with_key(key).with_handle(handle).with_page(page))
    }

    /// Looks a page up, touches it and adds a holder. A stale page is deleted, and is not found.
    ///
    /// A page that is found stays in the cache until [`PageCache::release`] has taken the holder away: it is neither evicted nor
    /// selected for a spill. Only a call that deletes pages, which doesn't look at holders, can still remove it.
    pub fn get(&mut self, key: PageCacheKey) -> Result<Option<PageHandle>, CacheError> {
        self.found(Record::new(Operation::Get).with_key(key))
    }

    /// Looks a page up and adds a holder; touches it only if asked. A stale page is found too.
    ///
    /// As after a [`PageCache::get`], the page stays in the cache until it is released. [`PageCache::contains_key`] adds no holder.
    pub fn peek(&mut self, key: PageCacheKey, touch: bool) -> Result<Option<PageHandle>, CacheError> {
        self.found(Record::new(Operation::Peek).with_key(key).with_option(touch))
    }

    /// Takes one holder away from the page under the key: to be called once for each [`PageCache::get`] and [`PageCache::peek`] that
    /// found a page. It is what the drop of a clone is in the original. It can't tell whose holder it takes.
    ///
    /// It goes by key. After an upsert, or a removal and another insertion, it takes from the page that stands there now, whose
    /// holders are those of its own record.
    ///
    /// ```
    /// # use page_cache::{CacheError, Page, PageCache, PageCacheKey, PageHandle};
    /// let mut cache = PageCache::new(4, 1)?;
    /// cache.insert(PageCacheKey(5), PageHandle(50), Page::loaded())?;
    /// assert_eq!(cache.get(PageCacheKey(5))?, Some(PageHandle(50)));
    /// assert_eq!(cache.insert(PageCacheKey(6), PageHandle(60), Page::loaded()), Err(CacheError::Full));
    /// cache.release(PageCacheKey(5))?;
    /// cache.insert(PageCacheKey(6), PageHandle(60), Page::loaded())?;
    /// assert_eq!(cache.listed(), [PageHandle(50)]);
    /// assert_eq!(cache.release(PageCacheKey(5)), Err(CacheError::Absent));
    /// assert_eq!(cache.release(PageCacheKey(6)), Err(CacheError::HolderLimit));
    /// # Ok::<(), CacheError>(())
    /// ```
    pub fn release(&mut self, key: PageCacheKey) -> Result<(), CacheError> {
        self.done(Record::new(Operation::Release).with_key(key))
    }

    /// Whether a page stands under the key, stale or not. The listing tells, which alters nothing: a [`PageCache::peek`] would add a
    /// holder, and refuses a page that has as many as there can be. [`PageCache::last`] and [`PageCache::listed`] stay as they were.
    ///
    /// ```
    /// # use page_cache::{Page, PageCache, PageCacheKey, PageHandle};
    /// let mut cache = PageCache::new(4, 2)?;
    /// cache.insert(PageCacheKey::new(5), PageHandle(50), Page::default())?;
    /// assert!(cache.contains_key(PageCacheKey::new(5))?);
    /// assert_eq!(cache.get(PageCacheKey::new(5))?, None); // it was stale
    /// assert!(!cache.contains_key(PageCacheKey::new(5))?);
    /// # Ok::<(), page_cache::CacheError>(())
    /// ```
    pub fn contains_key(&self, key: PageCacheKey) -> Result<bool, CacheError> {
        Ok(self.list()?.iter().any(|page| page.key == key))
    }

    /// Deletes a page that is not locked, dirty or pinned. An absent key is done.
    pub fn delete(&mut self, key: PageCacheKey) -> Result<(), CacheError> {
        self.done(Record::new(Operation::Delete).with_key(key))
    }

    /// Sets the capacity, and evicts while more pages are held.
    ///
    /// ```
    /// # use page_cache::{CacheResizeResult, Page, PageCache, PageCacheKey, PageHandle};
    /// let mut cache = PageCache::new(4, 2)?;
    /// cache.insert(PageCacheKey(5), PageHandle(50), Page::with(Page::DIRTY))?;
    /// cache.insert(PageCacheKey(6), PageHandle(60), Page::loaded())?;
    /// assert_eq!(cache.resize(0)?, CacheResizeResult::PendingEvictions);
    /// assert_eq!((cache.len(), cache.capacity()), (1, 2));
    /// # Ok::<(), page_cache::CacheError>(())
    /// ```
    pub fn resize(&mut self, capacity: u64) -> Result<CacheResizeResult, CacheError> {
        match self.call(Record::new(Operation::Resize).with_number(capacity)).error() {
            None => Ok(CacheResizeResult::Done),
            Some(CacheError::PendingEvictions) => Ok(CacheResizeResult::PendingEvictions),
            Some(error) => Err(error),
        }
    }

    /// Deletes the pages with a key above the limit, by ascending key, up to the first that refuses.
    pub fn truncate(&mut self, max_page_num: u64) -> Result<(), CacheError> {
        self.done(Record::new(Operation::Truncate).with_number(max_page_num))
    }

    /// Deletes clean tagged pages with a frame above the limit, by ascending key, up to the first that refuses.
    pub fn delete_clean_pages_after_wal_frame(&mut self, max_frame: u64) -> Result<(), CacheError> {
        self.done(Record::new(Operation::RemoveFrames).with_number(max_frame))
    }

    /// Empties the cache, if no page is dirty or dirty pages may go too.
    pub fn clear(&mut self, clear_dirty: bool) -> Result<(), CacheError> {
        self.done(Record::new(Operation::Clear).with_option(clear_dirty))
    }

    /// Tells that a page became dirty: one page less counts as evictable.
    pub fn notify_page_dirty(&mut self, key: PageCacheKey) -> Result<(), CacheError> {
        self.done(Record::new(Operation::NotifyDirty).with_key(key))
    }

    /// Tells that a page was spilled: one page more counts as evictable.
    pub fn notify_page_spilled(&mut self, key: PageCacheKey) -> Result<(), CacheError> {
        self.done(Record::new(Operation::NotifySpilled).with_key(key))
    }

    /// Writes a page's record, and says whether the key is there.
    ///
    /// The record's holders take the place of those that lookups added. One that says fewer lets a page go that is still in use, so
    /// they have to be read back before:
    ///
    /// ```
    /// # use page_cache::{CacheError, Page, PageCache, PageCacheKey, PageHandle};
    /// # let mut cache = PageCache::new(4, 2)?;
    /// # let key = PageCacheKey(5);
    /// # cache.insert(key, PageHandle(50), Page::loaded())?;
    /// cache.get(key)?;
    /// if let Some(listed) = cache.list()?.iter().find(|listed| listed.key == key) {
    ///     cache.write_record(key, Page { flags: Page::LOADED | Page::DIRTY, ..listed.page })?;
    /// }
    /// # assert_eq!(cache.list()?[0].page, Page { holders: 1, ..Page::with(Page::LOADED | Page::DIRTY) });
    /// cache.release(key)?;
    /// # Ok::<(), CacheError>(())
    /// ```
    pub fn write_record(&mut self, key: PageCacheKey, page: Page) -> Result<bool, CacheError> {
        self.found(Record::new(Operation::WriteRecord).with_key(key).with_page(page)).map(|found| found.is_some())
    }

    /// Which pages to spill, `max_pages` at most, if a spill is needed.
    ///
    /// ```
    /// # use page_cache::{Page, PageCache, PageCacheKey, PageHandle, SpillResult};
    /// let mut cache = PageCache::new(10, 10)?;
    /// for n in 2..12 {
    ///     cache.insert(PageCacheKey(n), PageHandle(n), Page::with(Page::LOADED | Page::DIRTY))?;
    /// }
    /// let two = vec![PageHandle(2), PageHandle(3)];
    /// assert_eq!(cache.check_spill(2)?, SpillResult::PagesToSpill(two));
    /// cache.set_spill_enabled(false)?;
    /// assert_eq!(cache.check_spill(2)?, SpillResult::NotNeeded);
    /// # Ok::<(), page_cache::CacheError>(())
    /// ```
    pub fn check_spill(&mut self, max_pages: u64) -> Result<SpillResult, CacheError> {
        match self.call(Record::new(Operation::CheckSpill).with_number(max_pages)).error() {
            None => Ok(SpillResult::PagesToSpill(self.listed().to_vec())),
            Some(CacheError::NotNeeded) => Ok(SpillResult::NotNeeded),
            Some(CacheError::NoneSelected) => Ok(SpillResult::CacheFull),
            Some(error) => Err(error),
        }
    }

    /// Whether a spill is needed. It is a [`PageCache::check_spill`] of at most 0 pages, which selects none and alters nothing: the
    /// rule stands in the library alone, where it is proved. [`PageCache::last`] and [`PageCache::listed`] stay as they were. It
    /// takes `&mut self`, since the library's function is lent the memory to alter it.
    ///
    /// ```
    /// # use page_cache::{Page, PageCache, PageCacheKey, PageHandle};
    /// let mut cache = PageCache::new(10, 10)?;
    /// for n in 2..12 {
    ///     assert!(!cache.needs_spill()?);
    ///     cache.insert(PageCacheKey(n), PageHandle(n), Page::with(Page::LOADED | Page::DIRTY))?;
    /// }
    /// assert!(cache.needs_spill()?);
    /// # Ok::<(), page_cache::CacheError>(())
    /// ```
    pub fn needs_spill(&mut self) -> Result<bool, CacheError> {
        let last = self.last;
        let checked = self.check_spill(0);
        self.last = last;
        match checked? {
            SpillResult::NotNeeded => Ok(false),
            SpillResult::CacheFull | SpillResult::PagesToSpill(_) => Ok(true),
        }
    }

    /// Whether spilling is on, as the head says.
    pub fn is_spill_enabled(&self) -> bool {
        self.memory.head[sys::head::SPILL] != 0
    }

    /// Evicts one page.
    pub fn evict_one(&mut self) -> Result<(), CacheError> {
        self.done(Record::new(Operation::EvictOne))
    }

    /// Turns spilling on or off.
    pub fn set_spill_enabled(&mut self, enabled: bool) -> Result<(), CacheError> {
        self.done(Record::new(Operation::SetSpill).with_option(enabled))
    }

    /// Every held page, in sweep order from the hand.
    pub fn list(&self) -> Result<Vec<ListedPage>, CacheError> {
        let memory = &self.memory;
        let mut pages = vec![[0; ListedPage::NUMBERS]; memory.by_key.len()];
        let numbers = pages.as_flattened_mut();
        let code = sys::list(&memory.slots, &memory.by_key, &memory.by_handle, &memory.marks, &memory.head, numbers);
        match CacheError::of(code, 0) {
            None => Ok(pages.into_iter().take(self.len()).map(ListedPage::of).collect()),
            Some(error) => Err(error),
        }
    }

    /// Whether the memory holds a cache.
    pub fn is_sound(&self) -> bool {
        let memory = &self.memory;
        sys::test(&memory.slots, &memory.by_key, &memory.by_handle, &memory.marks, &memory.head) == Code::Done
    }

    /// How many pages are held, as the head says.
    pub fn len(&self) -> usize {
        self.memory.head[sys::head::HELD] as usize
    }

    /// Whether nothing is held.
    pub fn is_empty(&self) -> bool {
        self.len() == 0
    }

    /// The most pages to hold, as the head says. Forced insertion may exceed it.
    pub fn capacity(&self) -> u64 {
        self.memory.head[sys::head::CAPACITY]
    }
}

impl fmt::Debug for PageCache<'_> {
    fn fmt(&self, f: &mut fmt::Formatter<'_>) -> fmt::Result {
        f.debug_struct("PageCache").field("memory", &self.memory).field("last", &self.last).field("listed", &self.listed()).finish()
    }
}
