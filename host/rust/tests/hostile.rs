//! Hostile memory: random and damaged memory of random lengths is lent to every exported function. A refusal may alter nothing,
//! byte for byte; nothing outside of what is lent may be altered in any case; what is sound before a call is sound after it.
//!
//! `HOSTILE_CALLS` sets how many calls are made, `HOSTILE_SEED` from where.
use page_cache::{sys, Code, Operation, Page, PageCacheKey, PageHandle, Record};

/// Xorshift: enough for a test, and the same everywhere.
struct Chance(u64);

impl Chance {
    fn next(&mut self) -> u64 {
        self.0 ^= self.0 << 13;
        self.0 ^= self.0 >> 7;
        self.0 ^= self.0 << 17;
        self.0.wrapping_mul(0x2545_f491_4f6c_dd1d)
    }

    fn below(&mut self, n: u64) -> u64 {
        (self.next() >> 11) % n
    }

    /// A number that may well be at a limit.
    fn odd(&mut self) -> u64 {
        match self.below(8) {
            0 => 0,
            1 => u64::MAX,
            2 => 1 << self.below(64),
            3 => (1 << self.below(64)) - 1,
            4 => self.below(16),
            5 => self.below(300),
            6 => u64::from(u32::MAX) + self.below(3) - 1,
            _ => self.next(),
        }
    }

    fn record(&mut self, keys: u64) -> Record {
        let page = Page {
            flags: if self.below(20) == 0 { self.next() as u8 } else { self.below(32) as u8 },
            pins: (self.below(5) == 0) as u16,
            // lookups add holders to those, up to the most that there can be
            holders: [0, 0, 0, 1, 2, u16::MAX - 1, u16::MAX][self.below(7) as usize],
            cells: (self.below(5) == 0) as u8,
            frame: if self.below(4) == 0 { self.odd() } else { self.below(keys) },
        };
        let operations = if self.below(3) == 0 { &INSERTIONS } else { Operation::ALL };
        let operation = self.one_of(operations);
        let (key, handle) = (self.below(keys) as u32, self.below(keys) as u32);
        let record = Record::new(operation).with_key(PageCacheKey(key)).with_handle(PageHandle(handle)).with_page(page);
        record.with_option(self.below(2) == 1)
    }

    fn one_of(&mut self, operations: &[Operation]) -> Operation {
        operations[self.below(operations.len() as u64) as usize]
    }
}

const INSERTIONS: [Operation; 3] = [Operation::Insert, Operation::ForceInsert, Operation::ForceUpsert];
// as often the one as the other, so that pages that were found can go again
const GET_OR_RELEASE: [Operation; 2] = [Operation::Get, Operation::Release];

/// Elements that stand on both sides of what is lent.
const MARGIN: usize = 3;

/// What is lent, between margins.
#[derive(Clone, PartialEq, Debug)]
struct Part<T>(Vec<T>);

impl<T: Copy + PartialEq + From<u8>> Part<T> {
    fn new(length: usize) -> Self {
        let mut all = vec![T::from(0xa5); length + 2 * MARGIN];
        all[MARGIN..MARGIN + length].fill(T::from(0));
        Part(all)
    }

    fn lent(&mut self) -> &mut [T] {
        let end = self.0.len() - MARGIN;
        &mut self.0[MARGIN..end]
    }

    fn seen(&self) -> &[T] {
        &self.0[MARGIN..self.0.len() - MARGIN]
    }

    fn margins_stand(&self) -> bool {
        let end = self.0.len() - MARGIN;
        self.0[..MARGIN].iter().chain(&self.0[end..]).all(|&x| x == T::from(0xa5))
    }
}

/// All that is lent to a call.
#[derive(Clone, PartialEq, Debug)]
struct Lent {
    slots: Part<u64>,
    by_key: Part<u32>,
    by_handle: Part<u32>,
    marks: Part<u64>,
    head: Part<u64>,
    list: Part<u32>,
    answer: Part<u64>,
    pages: Part<u64>,
}

impl Lent {
    fn for_slots(size: usize) -> Self {
        Lent {
            slots: Part::new(sys::SLOT_WORDS * size),
            by_key: Part::new(size),
            by_handle: Part::new(size),
            marks: Part::new(size.div_ceil(64)),
            head: Part::new(sys::HEAD),
            list: Part::new(size),
            answer: Part::new(sys::ANSWER),
            pages: Part::new(sys::PAGE * size),
        }
    }

    fn create(&mut self, capacity: u64) -> Code {
        sys::create(
            self.slots.lent(), self.by_key.lent(), self.by_handle.lent(), self.marks.lent(), self.head.lent(), capacity,
        )
    }

    fn test(&self) -> Code {
        sys::test(self.slots.seen(), self.by_key.seen(), self.by_handle.seen(), self.marks.seen(), self.head.seen())
    }

    fn list(&mut self) -> Code {
        sys::list(
            self.slots.seen(), self.by_key.seen(), self.by_handle.seen(), self.marks.seen(), self.head.seen(),
            self.pages.lent(),
        )
    }

    fn apply(&mut self, record: &[u8]) -> Code {
        sys::apply(
            self.slots.lent(), self.by_key.lent(), self.by_handle.lent(), self.marks.lent(), self.head.lent(),
            self.list.lent(), record, self.answer.lent(),
        )
    }

    fn margins_stand(&self) -> bool {
        self.slots.margins_stand()
            && self.by_key.margins_stand()
            && self.by_handle.margins_stand()
            && self.marks.margins_stand()
            && self.head.margins_stand()
            && self.list.margins_stand()
            && self.answer.margins_stand()
            && self.pages.margins_stand()
    }
}

/// A small pool with some history.
fn sound_pool(chance: &mut Chance) -> Lent {
    let size = match chance.below(6) {
        0 => 1 + chance.below(200) as usize,
        1 => [1, 63, 64, 65, 128, 256][chance.below(6) as usize],
        _ => 1 + chance.below(9) as usize,
    };
    let mut pool = Lent::for_slots(size);
    assert_eq!(pool.create(chance.below(size as u64 + 1)), Code::Done);
    let keys = 1 + chance.below(2 * size as u64 + 4);
    for _ in 0..chance.below(3 * size as u64 + 8) {
        let mut record = chance.record(keys);
        record.operation = if chance.below(2) == 0 { chance.one_of(&INSERTIONS) } else { chance.one_of(&GET_OR_RELEASE) };
        pool.apply(&record.bytes());
    }
    assert_eq!(pool.test(), Code::Done);
    pool
}

/// Another number in a place, near the old one or far from it.
fn damage_place(chance: &mut Chance, words: &mut [u64]) {
    if words.is_empty() {
        return;
    }
    let at = chance.below(words.len() as u64) as usize;
    words[at] = match chance.below(5) {
        0 => words[at] ^ 1 << chance.below(64),
        1 => words[at].wrapping_add(1),
        2 => words[chance.below(words.len() as u64) as usize],
        3 => words[at] ^ 1 << 32 * chance.below(2),
        _ => chance.odd(),
    };
}

fn damage_index(chance: &mut Chance, places: &mut [u32]) {
    if places.is_empty() {
        return;
    }
    let at = chance.below(places.len() as u64) as usize;
    let other = chance.below(places.len() as u64) as usize;
    match chance.below(3) {
        0 => places.swap(at, other),
        1 => places[at] = places[other],
        _ => places[at] = chance.odd() as u32,
    }
}

/// Another length, near the old one.
fn damage_length<T: Copy + PartialEq + From<u8>>(chance: &mut Chance, part: &mut Part<T>) {
    let old = part.seen().to_vec();
    let length = match chance.below(4) {
        0 => 0,
        1 => old.len() + 1,
        2 => old.len().saturating_sub(1),
        _ => chance.below(20) as usize,
    };
    let mut new = Part::new(length);
    let kept = length.min(old.len());
    new.lent()[..kept].copy_from_slice(&old[..kept]);
    *part = new;
}

fn damage(chance: &mut Chance, pool: &mut Lent) {
    for _ in 0..chance.below(3) {
        match chance.below(14) {
            0..=3 => damage_place(chance, pool.slots.lent()),
            4 | 5 => damage_index(chance, pool.by_key.lent()),
            6 | 7 => damage_index(chance, pool.by_handle.lent()),
            8 => damage_place(chance, pool.marks.lent()),
            9 | 10 => damage_place(chance, pool.head.lent()),
            11 => pool.slots.lent().fill_with(|| chance.odd()),
            _ => match chance.below(8) {
                0 => damage_length(chance, &mut pool.slots),
                1 => damage_length(chance, &mut pool.by_key),
                2 => damage_length(chance, &mut pool.by_handle),
                3 => damage_length(chance, &mut pool.marks),
                4 => damage_length(chance, &mut pool.head),
                5 => damage_length(chance, &mut pool.list),
                6 => damage_length(chance, &mut pool.answer),
                _ => damage_length(chance, &mut pool.pages),
            },
        }
    }
}

/// The bytes of a call, most of them good.
fn bytes(chance: &mut Chance) -> Vec<u8> {
    let mut bytes = chance.record(24).bytes().to_vec();
    match chance.below(20) {
        0 => bytes[chance.below(32) as usize] = chance.next() as u8,
        1 => bytes.truncate(chance.below(32) as usize),
        2 => bytes.push(0),
        _ => {}
    }
    bytes
}

/// Of every call: a refusal with this code leaves all that was lent as it was, but for the answer.
fn alters_nothing(code: Code) -> bool {
    use Code::*;
    let may_alter = [Done, Absent, Locked, Dirty, Pinned, Full, KeyExists, PendingEvictions];
    !may_alter.contains(&code)
}

/// One call of `apply` on a copy. What it may leave follows from its code.
fn try_apply(chance: &mut Chance, pool: &mut Lent, seen: &mut [u64]) {
    let before = pool.clone();
    let sound = before.test();
    let record = bytes(chance);
    let code = pool.apply(&record);
    seen[code.number() as usize] += 1;
    assert!(pool.margins_stand(), "outside of what was lent");
    assert_eq!(pool.pages, before.pages, "what was not lent");
    let long = before.head.seen().len() == sys::HEAD && before.answer.seen().len() == sys::ANSWER;
    if !long {
        assert_eq!((code, &*pool), (Code::BadLengths, &before), "wrong lengths of head or answer");
        return;
    }
    assert_eq!(pool.answer.seen()[sys::answer::CODE], u64::from(code.number()));
    let operation = record.first().and_then(|&number| Operation::from_number(number));
    let bad = record.len() != Record::LENGTH || operation.is_none() || record[15] > 1 || record[24..].iter().any(|&b| b != 0);
    assert_eq!(code == Code::BadReplay, bad, "a bad record is told first");
    if !bad && operation != Some(Operation::Create) {
        assert_eq!(code == Code::NotSound, sound != Code::Done, "exactly on memory that is not sound");
    }
    if alters_nothing(code) {
        let mut after = pool.clone();
        after.answer = before.answer.clone();
        assert_eq!(after, before, "{code:?}: nothing may be altered");
    }
    if sound == Code::Done || code == Code::Done {
        assert_eq!(pool.test(), Code::Done, "{code:?}: sound memory stays sound");
    }
    let listed = pool.answer.seen()[sys::answer::LISTED] as usize;
    assert_eq!(pool.list.seen()[listed..], before.list.seen()[listed..], "places past the handles keep their values");
}

/// Calls of the other three on copies.
fn try_others(chance: &mut Chance, pool: &Lent) {
    let sound = pool.test();
    let mut after = pool.clone();
    let code = after.list();
    assert!(after.margins_stand());
    let rest = Lent { pages: pool.pages.clone(), ..after.clone() };
    assert_eq!(&rest, pool, "a listing alters nothing but its list");
    if code != Code::Done {
        assert_eq!(&after, pool, "{code:?}: nothing may be altered");
        assert!(code == Code::ShortList && sound == Code::Done || code == sound, "{code:?}, test {sound:?}");
    } else {
        let places = sys::PAGE * pool.head.seen()[sys::head::HELD] as usize;
        assert_eq!(after.pages.seen()[places..], pool.pages.seen()[places..]);
    }
    let mut after = pool.clone();
    let code = after.create(chance.odd());
    assert!(after.margins_stand());
    if code == Code::Done {
        assert_eq!(after.test(), Code::Done, "what was created is sound");
    } else {
        assert!(matches!(code, Code::TooLarge | Code::BadLengths));
        assert_eq!(&after, pool, "{code:?}: nothing may be altered");
    }
}

fn asked(name: &str, otherwise: u64) -> u64 {
    std::env::var(name).map_or(otherwise, |text| text.parse().expect("a number"))
}

#[test]
fn refusals_alter_nothing() {
    let mut chance = Chance(asked("HOSTILE_SEED", 1) | 1 << 63);
    let calls = asked("HOSTILE_CALLS", 100_000);
    let mut seen = vec![0; Code::ALL.len()];
    let mut made = 0;
    while made < calls {
        let sound = sound_pool(&mut chance);
        for _ in 0..10 {
            let mut pool = sound.clone();
            damage(&mut chance, &mut pool);
            try_others(&mut chance, &pool);
            for _ in 0..4 {
                try_apply(&mut chance, &mut pool, &mut seen);
            }
            made += 6;
        }
    }
    println!("{made} calls; apply's answers by code: {seen:?}");
    // the test is worth something only if both sides come up: refusals of every kind, and calls that are done
    let times = |code: Code| seen[code.number() as usize];
    use Code::*;
    for code in [
        Done, NotSound, BadRecord, ShortList, Absent, Full, HandleElsewhere, TooLarge, BadLengths, BadReplay, HolderLimit,
    ] {
        assert!(times(code) > 0, "{code:?} never came");
    }
    assert!(times(NotSound) * 20 > made && times(Done) * 20 > made);
}

#[test]
fn any_words_of_any_lengths() {
    let mut chance = Chance(asked("HOSTILE_SEED", 1) | 1 << 62);
    for _ in 0..asked("HOSTILE_CALLS", 100_000) / 10 {
        let mut pool = Lent::for_slots(chance.below(6) as usize);
        for length in 0..chance.below(3) {
            match length + chance.below(4) {
                0 => damage_length(&mut chance, &mut pool.slots),
                1 => damage_length(&mut chance, &mut pool.by_key),
                2 => damage_length(&mut chance, &mut pool.marks),
                _ => damage_length(&mut chance, &mut pool.head),
            }
        }
        for part in [pool.slots.lent(), pool.marks.lent(), pool.head.lent()] {
            part.fill_with(|| chance.odd());
        }
        for part in [pool.by_key.lent(), pool.by_handle.lent()] {
            part.fill_with(|| chance.below(6) as u32);
        }
        try_others(&mut chance, &pool);
        try_apply(&mut chance, &mut pool, &mut vec![0; Code::ALL.len()]);
    }
}
