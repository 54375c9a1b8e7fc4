//! The operations and the answer codes, by the names and numbers of `docs/calls.tsv` and `docs/answers.tsv`. A test compares them.

/// An enum with a number for each name, and the way from number to name.
macro_rules! numbered {
    ($(#[$about:meta])* $kind:ident: $number:ident { $($(#[$meaning:meta])* $name:ident = $value:literal,)* }) => {
        $(#[$about])*
        #[derive(Clone, Copy, Debug, PartialEq, Eq, PartialOrd, Ord, Hash)]
        #[non_exhaustive]
        #[repr($number)]
        pub enum $kind {
            $($(#[$meaning])* $name = $value,)*
        }

        impl $kind {
            /// All of them, by their numbers.
            pub const ALL: &'static [$kind] = &[$($kind::$name),*];

            /// The one that has this number.
            pub fn from_number(number: $number) -> Option<Self> {
                match number {
                    $($value => Some($kind::$name),)*
                    _ => None,
                }
            }

            /// Its number.
            pub fn number(self) -> $number {
                self as $number
            }
        }
    };
}

numbered! {
    /// What a record asks for.
    Operation: u8 {
        /// [`crate::PageCache::create`]
        Create = 0,
        /// [`crate::PageCache::insert`]
        Insert = 1,
        /// [`crate::PageCache::force_insert_page`]
        ForceInsert = 2,
        /// [`crate::PageCache::force_upsert_page`]
        ForceUpsert = 3,
        /// [`crate::PageCache::get`]
        Get = 4,
        /// [`crate::PageCache::peek`]
        Peek = 5,
        /// [`crate::PageCache::delete`]
        Delete = 6,
        /// [`crate::PageCache::resize`]
        Resize = 7,
        /// [`crate::PageCache::truncate`]
        Truncate = 8,
        /// [`crate::PageCache::delete_clean_pages_after_wal_frame`]
        RemoveFrames = 9,
        /// [`crate::PageCache::clear`]
        Clear = 10,
        /// [`crate::PageCache::notify_page_dirty`]
        NotifyDirty = 11,
        /// [`crate::PageCache::notify_page_spilled`]
        NotifySpilled = 12,
        /// [`crate::PageCache::write_record`]
        WriteRecord = 13,
        /// [`crate::PageCache::check_spill`]
        CheckSpill = 14,
        /// [`crate::PageCache::evict_one`]
        EvictOne = 15,
        /// [`crate::PageCache::set_spill_enabled`]
        SetSpill = 16,
        /// [`crate::PageCache::release`]
        Release = 17,
    }
}

numbered! {
    /// The code of an answer. Every one but `Done` is a [`crate::CacheError`] of the same name.
    Code: u32 {
        /// The call was done.
        Done = 0,
        /// The memory is not sound.
        NotSound = 1,
        /// The page record has flags above 31.
        BadRecord = 2,
        /// The list is shorter than the pages held.
        ShortList = 3,
        /// The key is absent.
        Absent = 4,
        /// A page that has to go is locked.
        Locked = 5,
        /// A page that has to go is dirty.
        Dirty = 6,
        /// A page that has to go is pinned.
        Pinned = 7,
        /// No page may go, or the capacity is 0.
        Full = 8,
        /// The key is there with the same handle.
        KeyExists = 9,
        /// More pages are held than the new capacity, and none of them may go.
        PendingEvictions = 10,
        /// The key is there with another handle.
        OtherPage = 11,
        /// The handle stands under another key.
        HandleElsewhere = 12,
        /// Every slot is taken.
        NoSlot = 13,
        /// One page is to be evicted, and none is held.
        Empty = 14,
        /// The capacity is above the number of slots.
        TooLarge = 15,
        /// The number of slots or a lent length is wrong.
        BadLengths = 16,
        /// The bytes are no record.
        BadReplay = 17,
        /// No spill is needed.
        NotNeeded = 18,
        /// A spill is needed, and no page was selected.
        NoneSelected = 19,
        /// The page has 65,535 holders and would get one more, or has none and would lose one.
        HolderLimit = 20,
    }
}
