//! The cache, and stand-ins for its neighbours in turso_core.

pub mod btree;
pub mod pager;
pub mod sqlite3_ondisk;

/// The cache as published. Including it leaves the file as it is and still
/// allows a child module, which may read what is private here.
#[allow(dead_code)]
pub mod page_cache {
    include!("page_cache.rs");

    pub mod inspect;
}
