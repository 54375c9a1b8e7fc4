//! Stand-in: the cache only asks which page holds the database header.

pub struct DatabaseHeader;

impl DatabaseHeader {
    /// Page 1 is never evicted, spilled or counted as evictable.
    pub const PAGE_ID: usize = 1;
}
