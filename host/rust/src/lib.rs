//! turso_core's page cache with every promise proved, for Rust: a safe wrapper of `libpage_cache_c.a`.
//!
//! The cache holds pages by key, in a pool of slots, and evicts by a clock hand with use counts from 0 to 3. Pages are the
//! caller's: the cache knows each by a handle, and by the page record that the caller keeps up to date. Names and results are
//! the original's, and every refusal is a [`CacheError`] of its own. [`PageCache::last`] has the rest of each answer, and
//! [`PageCache::listed`] the handles that left the cache.
//!
//! A page that was looked up is held, and stays in the cache, until it is released. In the original a clone of the page does that, and
//! lets go when it is dropped; here nothing is dropped, and [`PageCache::release`] has to be called.
//!
//! One thread at a time: nothing here locks. A cache that threads share needs a lock around it, a `Mutex<PageCache>`.
//!
//! ```
//! use page_cache::{Page, PageCache, PageCacheKey, PageHandle};
//!
//! let mut cache = PageCache::new(8, 2)?;
//! cache.insert(PageCacheKey(10), PageHandle(100), Page::loaded())?;
//! cache.insert(PageCacheKey(20), PageHandle(200), Page::loaded())?;
//! assert_eq!(cache.get(PageCacheKey(10))?, Some(PageHandle(100)));
//!
//! // key 10's page has a holder, so the third page takes the place of key 20
//! cache.insert(PageCacheKey(30), PageHandle(300), Page::loaded())?;
//! assert_eq!(cache.listed(), [PageHandle(200)]);
//! assert_eq!(cache.last().passed, 1);
//! assert_eq!(cache.get(PageCacheKey(20))?, None);
//!
//! // the page of key 10 is no longer read: from now on it may go
//! cache.release(PageCacheKey(10))?;
//! # Ok::<(), page_cache::CacheError>(())
//! ```

mod answer;
mod cache;
mod calls;
mod memory;
mod record;
pub mod sys;

pub use answer::{Answer, CacheError, CacheResizeResult, SpillResult};
pub use cache::PageCache;
pub use calls::{Code, Operation};
pub use memory::Memory;
pub use record::{ListedPage, Page, PageCacheKey, PageHandle, Record};
