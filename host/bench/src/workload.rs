//! The calls that are measured, made before they are timed.
use page_cache::{Code, Operation, Page, PageCache, PageCacheKey, PageHandle, Record};

/// What a load consists of.
#[derive(Clone, Copy, PartialEq, Eq)]
pub enum Shape {
    /// Lookups of held pages in a full cache. Nothing has to go from it, and none of them is released.
    Lookup,
    /// The same, each lookup followed by its release: half lookups, half releases.
    LookupRelease,
    /// Insertions into an empty cache until it is full, keys in random order.
    InsertRoom,
    /// Insertions of new keys into a full cache; each evicts one page that was never used.
    InsertEvict,
    /// Deletions of every page of a full cache, keys in random order.
    Delete,
    /// Insertions into a full cache of dirty pages: each is a sweep of four rounds that takes none.
    Look,
    /// In a full cache the page in slot 0 goes and comes again, over and over: half deletions, half insertions. Its key is the highest,
    /// so that nothing moves in a sorted index.
    FirstSlot,
    /// The same with the page in the last slot, before which no slot is free.
    LastSlot,
    /// Lookups over a quarter more keys than fit, each hit followed by its release and each miss by an insertion, and a deletion in
    /// twenty calls.
    Mixed,
}

impl Shape {
    pub const ALL: [Shape; 9] = [
        Shape::Lookup,
        Shape::LookupRelease,
        Shape::InsertRoom,
        Shape::InsertEvict,
        Shape::Delete,
        Shape::FirstSlot,
        Shape::LastSlot,
        Shape::Look,
        Shape::Mixed,
    ];

    fn name(self) -> &'static str {
        match self {
            Shape::Lookup => "lookup, hit",
            Shape::LookupRelease => "lookup or release, hit",
            Shape::InsertRoom => "insert with room",
            Shape::InsertEvict => "insert with eviction",
            Shape::Delete => "delete",
            Shape::FirstSlot => "delete or insert, first slot",
            Shape::LastSlot => "delete or insert, last slot",
            Shape::Look => "one look of a sweep",
            Shape::Mixed => "mixed",
        }
    }
}

pub struct Load {
    pub name: &'static str,
    /// The pages held before the calls, in the order of their insertion.
    pub held: Vec<Record>,
    pub calls: Vec<Record>,
    /// How many looks a call makes, for the load that is counted by looks; 1 for all others.
    pub looks: usize,
}

/// Xorshift, the same in each run.
struct Chance(u64);

impl Chance {
    fn below(&mut self, n: usize) -> usize {
        self.0 ^= self.0 << 13;
        self.0 ^= self.0 >> 7;
        self.0 ^= self.0 << 17;
        (self.0.wrapping_mul(0x2545_f491_4f6c_dd1d) >> 33) as usize % n
    }

    fn shuffled(&mut self, mut keys: Vec<u32>) -> Vec<u32> {
        for i in (1..keys.len()).rev() {
            keys.swap(i, self.below(i + 1));
        }
        keys
    }
}

fn insertion(key: u32, flags: u8) -> Record {
    Record::new(Operation::Insert).with_key(PageCacheKey(key)).with_handle(PageHandle(key)).with_page(Page::with(flags))
}

fn by_key(operation: Operation, key: u32) -> Record {
    Record::new(operation).with_key(PageCacheKey(key))
}

/// The calls of the mixed load. A cache tells which lookups hit and which miss: a page that isn't released never goes, and the Rust
/// asserts if a key comes again with another page.
fn mixed(chance: &mut Chance, pages: usize, held: &[Record]) -> Vec<Record> {
    let mut cache = PageCache::new(pages, pages as u64).expect("a pool");
    for record in held {
        cache.apply(&record.bytes());
    }
    let mut calls = Vec::new();
    while calls.len() < 20_000 {
        let key = 2 + chance.below(pages + pages / 4) as u32;
        let call = by_key(if chance.below(20) == 0 { Operation::Delete } else { Operation::Get }, key);
        let code = cache.apply(&call.bytes()).code;
        calls.push(call);
        if call.operation == Operation::Get {
            let next = if code == Code::Done { by_key(Operation::Release, key) } else { insertion(key, Page::LOADED) };
            assert_eq!(cache.apply(&next.bytes()).code, Code::Done);
            calls.push(next);
        }
    }
    calls
}

impl Load {
    pub fn new(shape: Shape, pages: usize) -> Self {
        let mut chance = Chance(0x9e37_79b9_7f4a_7c15);
        let n = pages as u32;
        // keys from 2 on: page 1 never goes
        let keys = chance.shuffled((2..n + 2).collect());
        let loaded = Page::LOADED;
        let fill = |flags| keys.iter().map(|&key| insertion(key, flags)).collect::<Vec<_>>();
        let again = || [by_key(Operation::Delete, n + 1), insertion(n + 1, loaded)].repeat(5_000);
        let (held, calls) = match shape {
            Shape::Lookup => {
                (fill(loaded), (0..20_000).map(|_| by_key(Operation::Get, 2 + chance.below(pages) as u32)).collect())
            }
            Shape::LookupRelease => {
                let pairs = (0..10_000).map(|_| 2 + chance.below(pages) as u32);
                (fill(loaded), pairs.flat_map(|key| [by_key(Operation::Get, key), by_key(Operation::Release, key)]).collect())
            }
            Shape::InsertRoom => (Vec::new(), fill(loaded)),
            Shape::InsertEvict => (fill(loaded), (0..10_000).map(|i| insertion(n + 2 + i, loaded)).collect()),
            Shape::Delete => {
                let order = chance.shuffled(keys.clone());
                (fill(loaded), order.into_iter().map(|key| by_key(Operation::Delete, key)).collect())
            }
            Shape::FirstSlot => ([n + 1].into_iter().chain(2..n + 1).map(|key| insertion(key, loaded)).collect(), again()),
            Shape::LastSlot => ((2..n + 2).map(|key| insertion(key, loaded)).collect(), again()),
            Shape::Look => (fill(loaded | Page::DIRTY), (0..20).map(|i| insertion(n + 2 + i, loaded)).collect()),
            Shape::Mixed => (fill(loaded), mixed(&mut chance, pages, &fill(loaded))),
        };
        Load { name: shape.name(), held, calls, looks: if shape == Shape::Look { 4 * pages } else { 1 } }
    }

    /// The number of steps that are timed: calls, or looks for the load that is counted by looks.
    pub fn steps(&self) -> usize {
        self.calls.len() * self.looks
    }

    /// The calls as replay records.
    pub fn bytes(&self) -> Vec<u8> {
        self.calls.iter().flat_map(|record| record.bytes()).collect()
    }
}
