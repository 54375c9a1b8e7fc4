//! The soundness test over damaged memory, over some that is sound, and over what creations leave. What it has to say of each is
//! worked out by `tools/damaged-answers`, from document 01's sentence on sound memory and without the cache. There a memory is
//! described by its fields, and here by its words; that both are the same is compared too.
use page_cache::sys::head::{CAPACITY, ESTIMATE, HAND, HELD, SPILL};
use page_cache::{sys, Code};
use std::process::Command;

/// A memory of 8 slots, and in each part something that stands behind what is lent.
#[derive(Clone)]
struct Memory {
    /// Four words to a slot. From the lowest bits: key, handle; next, prev; flags, uses, cells, spare, pins, holders; frame.
    slots: [[u64; 4]; 9],
    by_key: [u32; 9],
    by_handle: [u32; 9],
    marks: [u64; 2],
    head: [u64; sys::HEAD],
    lent: Lengths,
}

/// How many words and places of each part are lent.
#[derive(Clone)]
struct Lengths {
    slots: usize,
    by_key: usize,
    by_handle: usize,
    marks: usize,
}

impl Lengths {
    /// Those of a pool with `size` slots.
    const fn of(size: usize) -> Self {
        Lengths { slots: 4 * size, by_key: size, by_handle: size, marks: size.div_ceil(64) }
    }
}

const EIGHT: Lengths = Lengths::of(8);

/// Five pages in slots 5, 2, 7, 0 and 3, in the order of a sweep, under keys and handles of other orders.
static POOL: Memory = Memory {
    slots: [
        [0x005_0000_0028, 0x7_0000_0003, 0x0002_0000_0000_0001, 9],
        [0; 4],
        [0x12c_0000_0000, 0x5_0000_0007, 0x0000_0001_0001_0305, 0],
        [0x02c_0000_0001, 0x0_0000_0005, 0x0000_0000_0000_021f, u64::MAX],
        [0; 4],
        [0x008_0000_005a, 0x3_0000_0002, 0x0000_0000_0000_0101, 0],
        [0; 4],
        [0x000_0000_000c, 0x2_0000_0000, 0xffff_ffff_00ff_0311, 77],
        [0; 4],
    ],
    by_key: [2, 3, 7, 0, 5, 0, 0, 0, 0],
    by_handle: [7, 0, 5, 3, 2, 0, 0, 0, 0],
    marks: [0b0101_0010, 0],
    head: [6, 5, 5, 1, 3],
    lent: EIGHT,
};

/// Nothing is held.
static EMPTY: Memory = Memory {
    slots: [[0; 4]; 9],
    by_key: [0; 9],
    by_handle: [0; 9],
    marks: [0b1111_1111, 0],
    head: [8, 0, 0, 1, 0],
    lent: EIGHT,
};

/// Every slot is held. Keys descend as slots ascend, handles ascend, and the sweep goes down from slot 6.
static FULL: Memory = Memory {
    slots: [
        [0x0_0000_0007, 0x1_0000_0007, 1, 0],
        [0x1_0000_0006, 0x2_0000_0000, 1, 0],
        [0x2_0000_0005, 0x3_0000_0001, 1, 0],
        [0x3_0000_0004, 0x4_0000_0002, 1, 0],
        [0x4_0000_0003, 0x5_0000_0003, 1, 0],
        [0x5_0000_0002, 0x6_0000_0004, 1, 0],
        [0x6_0000_0001, 0x7_0000_0005, 1, 0],
        [0x7_0000_0000, 0x0_0000_0006, 1, 0],
        [0; 4],
    ],
    by_key: [7, 6, 5, 4, 3, 2, 1, 0, 0],
    by_handle: [0, 1, 2, 3, 4, 5, 6, 7, 0],
    marks: [0, 0],
    head: [8, 8, 6, 0, 8],
    lent: EIGHT,
};

/// The pool without the page in slot 7.
fn pool_without_slot_7() -> Memory {
    let mut memory = POOL.clone();
    memory.slots[7] = [0; 4];
    memory.link(&[(2, 0, 5), (0, 3, 2)]);
    memory.by_key = [2, 3, 0, 5, 0, 0, 0, 0, 0];
    memory.by_handle = [0, 5, 3, 2, 0, 0, 0, 0, 0];
    memory.marks[0] = 0b1101_0010;
    memory.head[HELD] = 4;
    memory
}

impl Memory {
    /// Sets the links of slots: each is given with its next and its prev.
    fn link(&mut self, links: &[(usize, u64, u64)]) {
        for &(slot, next, prev) in links {
            self.slots[slot][1] = prev << 32 | next;
        }
    }

    /// What the test says of what is lent, and what is lent.
    fn tested(&self) -> String {
        let slots = &self.slots.as_flattened()[..self.lent.slots];
        let by_key = &self.by_key[..self.lent.by_key];
        let by_handle = &self.by_handle[..self.lent.by_handle];
        let marks = &self.marks[..self.lent.marks];
        let head = &self.head;
        let verdict = verdict(sys::test(slots, by_key, by_handle, marks, head));
        format!("{verdict} {slots:?} {by_key:?} {by_handle:?} {marks:?} {head:?}")
    }
}

fn verdict(code: Code) -> &'static str {
    match code {
        Code::Done => "sound",
        Code::NotSound => "not sound",
        _ => panic!("the test answered {code:?}"),
    }
}

/// What was said of each memory, a line each.
struct Said(Vec<String>);

impl Said {
    fn of(&mut self, memory: &Memory, name: &str, damage: impl FnOnce(&mut Memory)) {
        let mut damaged = memory.clone();
        damage(&mut damaged);
        self.0.push(format!("{name}: {}", damaged.tested()));
    }

    fn of_each(&mut self, memory: &Memory, damages: &[Named]) {
        for (name, damage) in damages {
            self.of(memory, name, damage);
        }
    }

    /// A creation in memory that is full of ones, and what the test says of what it leaves.
    fn of_creation(&mut self, lent: Lengths, capacity: u64) {
        let mut slots = vec![u64::MAX; lent.slots];
        let mut by_key = vec![u32::MAX; lent.by_key];
        let mut by_handle = vec![u32::MAX; lent.by_handle];
        let mut marks = vec![u64::MAX; lent.marks];
        let mut head = [u64::MAX; sys::HEAD];
        let code = sys::create(&mut slots, &mut by_key, &mut by_handle, &mut marks, &mut head, capacity);
        let mut line = format!(
            "create in {} words, {} and {} places and {} words of marks, capacity {capacity}, code {}",
            lent.slots, lent.by_key, lent.by_handle, lent.marks, code.number()
        );
        if code == Code::Done {
            line += ": ";
            line += verdict(sys::test(&slots, &by_key, &by_handle, &marks, &head));
        }
        self.0.push(line);
    }
}

type Index = fn(&mut Memory) -> &mut [u32; 9];
const INDEXES: [(&str, Index); 2] = [("by_key", |m| &mut m.by_key), ("by_handle", |m| &mut m.by_handle)];
const NUMBERS: [(&str, usize); 5] =
    [("capacity", CAPACITY), ("held", HELD), ("hand", HAND), ("spill switch", SPILL), ("estimate", ESTIMATE)];

/// Each word, place and number three times: to 0, to all ones, and to what stands in the next slot or place. Marks and the head's
/// numbers have no next: their lowest bit is flipped.
fn words(said: &mut Said) {
    for at in 0..32 {
        for to in [0, u64::MAX, POOL.slots[(at / 4 + 1) % 8][at % 4]] {
            said.of(&POOL, &format!("slots word {at} to {to}"), |m| m.slots[at / 4][at % 4] = to);
        }
    }
    for (name, index) in INDEXES {
        let places = *index(&mut POOL.clone());
        for at in 0..8 {
            for to in [0, u32::MAX, places[(at + 1) % 8]] {
                said.of(&POOL, &format!("{name} place {at} to {to}"), |m| index(m)[at] = to);
            }
        }
    }
    for to in [0, u64::MAX, POOL.marks[0] ^ 1] {
        said.of(&POOL, &format!("marks word 0 to {to}"), |m| m.marks[0] = to);
    }
    for (name, number) in NUMBERS {
        let ones = if number == SPILL { u8::MAX.into() } else { u32::MAX.into() };
        for to in [0, ones, POOL.head[number] ^ 1] {
            said.of(&POOL, &format!("{name} to {to}"), |m| m.head[number] = to);
        }
    }
}

/// Each slot's next and prev set to each slot and to one that is not there.
fn links(said: &mut Said) {
    for slot in 0..8 {
        let [next, prev] = [POOL.slots[slot][1] & 0xffff_ffff, POOL.slots[slot][1] >> 32];
        for to in 0..9 {
            said.of(&POOL, &format!("slot {slot} next to {to}"), |m| m.link(&[(slot, to, prev)]));
            said.of(&POOL, &format!("slot {slot} prev to {to}"), |m| m.link(&[(slot, next, to)]));
        }
    }
}

/// Each two places of an index swapped.
fn swaps(said: &mut Said) {
    for (name, index) in INDEXES {
        for first in 0..8 {
            for second in first + 1..8 {
                said.of(&POOL, &format!("{name} places {first} and {second} swapped"), |m| index(m).swap(first, second));
            }
        }
    }
}

/// Each mark the other way round.
fn marks(said: &mut Said) {
    for bit in 0..64 {
        said.of(&POOL, &format!("mark {bit} flipped"), |m| m.marks[0] ^= 1 << bit);
    }
}

/// Each slot's flags, use count and spare byte, at their limits and above.
fn fields(said: &mut Said) {
    for slot in 0..8 {
        for (name, byte, to) in
            [("flags", 0, 31), ("flags", 0, 32), ("uses", 1, 3), ("uses", 1, 4), ("spare", 3, 0), ("spare", 3, 1)]
        {
            said.of(&POOL, &format!("slot {slot} {name} to {to}"), |m| {
                let mut bytes = m.slots[slot][2].to_le_bytes();
                bytes[byte] = to;
                m.slots[slot][2] = u64::from_le_bytes(bytes);
            });
        }
    }
}

/// Capacity, held, hand and spill switch, from 0 to 9.
fn numbers(said: &mut Said) {
    for (name, number) in &NUMBERS[..4] {
        for to in 0..10 {
            said.of(&POOL, &format!("{name} to {to}"), |m| m.head[*number] = to);
        }
    }
}

/// A damage that has a name.
type Named = (&'static str, fn(&mut Memory));

const LENGTHS: &[Named] = &[
    ("length of slots to 0", |m| m.lent.slots = 0),
    ("length of slots to 28", |m| m.lent.slots = 28),
    ("length of slots to 31", |m| m.lent.slots = 31),
    ("length of slots to 33", |m| m.lent.slots = 33),
    ("length of slots to 36", |m| m.lent.slots = 36),
    ("length of by_key to 0", |m| m.lent.by_key = 0),
    ("length of by_key to 7", |m| m.lent.by_key = 7),
    ("length of by_key to 9", |m| m.lent.by_key = 9),
    ("length of by_handle to 0", |m| m.lent.by_handle = 0),
    ("length of by_handle to 7", |m| m.lent.by_handle = 7),
    ("length of by_handle to 9", |m| m.lent.by_handle = 9),
    ("length of marks to 0", |m| m.lent.marks = 0),
    ("length of marks to 2", |m| m.lent.marks = 2),
    ("no slots", |m| m.lent = Lengths::of(0)),
    ("7 slots", |m| m.lent = Lengths::of(7)),
    ("9 slots, the last unmarked", |m| m.lent = Lengths::of(9)),
    ("9 slots, the last free", |m| {
        m.lent = Lengths::of(9);
        m.marks[0] = 0b1_0101_0010;
    }),
    ("9 slots, the last free, capacity 9", |m| {
        m.lent = Lengths::of(9);
        m.marks[0] = 0b1_0101_0010;
        m.head[CAPACITY] = 9;
    }),
];

const RINGS: &[Named] = &[
    ("the pool as it is", |_| ()),
    ("swept in another order", |m| m.link(&[(5, 7, 3), (7, 2, 5), (2, 0, 7), (0, 3, 2)])),
    ("two rings", |m| m.link(&[(5, 2, 2), (2, 5, 5), (7, 0, 3), (3, 7, 0)])),
    ("two rings, the hand's counted", |m| {
        m.link(&[(5, 2, 2), (2, 5, 5), (7, 0, 3), (3, 7, 0)]);
        m.head[HELD] = 2;
    }),
    ("a ring that leaves out slot 7", |m| m.link(&[(2, 0, 5), (0, 3, 2)])),
    ("a ring that leaves out slot 7, held 4", |m| {
        m.link(&[(2, 0, 5), (0, 3, 2)]);
        m.head[HELD] = 4;
    }),
    ("a ring of slot 5 alone", |m| m.link(&[(5, 5, 5)])),
    ("crossed links", |m| m.link(&[(2, 0, 5), (7, 3, 2)])),
    ("next links alone changed", |m| m.link(&[(5, 7, 3), (7, 2, 2), (2, 0, 5)])),
    ("free slot 4 in the ring", |m| m.link(&[(7, 4, 2), (4, 0, 7), (0, 3, 4)])),
    ("free slot 4 in the ring, held 6", |m| {
        m.link(&[(7, 4, 2), (4, 0, 7), (0, 3, 4)]);
        m.head[HELD] = 6;
    }),
    ("links that never come back", |m| m.link(&[(3, 2, 0)])),
];

const NAMES: &[Named] = &[
    ("one key twice", |m| m.slots[3][0] = 0x2c_0000_0000),
    ("one handle twice", |m| m.slots[0][0] = 0x28),
    ("by_key by descending keys", |m| m.by_key = [5, 0, 7, 3, 2, 0, 0, 0, 0]),
    ("by_key in the order of handles", |m| m.by_key = [7, 0, 5, 3, 2, 0, 0, 0, 0]),
    ("by_handle in the order of keys", |m| m.by_handle = [2, 3, 7, 0, 5, 0, 0, 0, 0]),
    ("by_key with slot 3 twice", |m| m.by_key[2] = 3),
    ("by_key with a free slot", |m| m.by_key[2] = 4),
    ("by_key with a slot that is not there", |m| m.by_key[4] = 8),
    ("by_key with one place more", |m| m.by_key[5] = 6),
    ("another key in the same order", |m| m.slots[7][0] = 13),
    ("another key in another order", |m| m.slots[7][0] = 91),
];

/// Removals that left a part as it was.
const REMOVALS: &[Named] = &[
    ("slot 7 removed", |_| ()),
    ("slot 7 removed, a word left", |m| m.slots[7][3] = 77),
    ("slot 7 removed, not marked", |m| m.marks[0] = 0b0101_0010),
    ("slot 7 removed, held as before", |m| m.head[HELD] = 5),
    ("slot 7 removed, by_key as before", |m| m.by_key = [2, 3, 7, 0, 5, 0, 0, 0, 0]),
    ("slot 7 removed, by_handle as before", |m| m.by_handle = [7, 0, 5, 3, 2, 0, 0, 0, 0]),
    ("slot 7 removed, links as before", |m| m.link(&[(2, 7, 5), (0, 3, 7)])),
];

const OF_EMPTY: &[Named] = &[
    ("nothing held", |_| ()),
    ("nothing held in no slots", |m| {
        m.lent = Lengths::of(0);
        m.head[CAPACITY] = 0;
    }),
    ("nothing held, capacity 0", |m| m.head[CAPACITY] = 0),
    ("nothing held, spilling off", |m| m.head[SPILL] = 0),
    ("nothing held, largest estimate", |m| m.head[ESTIMATE] = u32::MAX.into()),
    ("nothing held, a hand", |m| m.head[HAND] = 3),
    ("nothing held, a mark missing", |m| m.marks[0] = 0b1111_0111),
    ("nothing held, no marks, all zero", |m| {
        m.marks[0] = 0;
        m.head = [0; sys::HEAD];
    }),
    ("nothing held, slot 0 held after all", |m| {
        m.marks[0] = 0b1111_1110;
        m.head[HELD] = 1;
    }),
    ("slot 0 held, zero as it is, and slot 1", |m| {
        m.marks[0] = 0b1111_1100;
        m.head[HELD] = 2;
    }),
    ("nothing held, a word of a slot", |m| m.slots[3][2] = 1),
    ("nothing held, a place of by_handle", |m| m.by_handle[7] = 1),
];

const OF_FULL: &[Named] = &[
    ("every slot held", |_| ()),
    ("every slot held, another hand", |m| m.head[HAND] = 0),
    ("every slot held, capacity 0", |m| m.head[CAPACITY] = 0),
    ("every slot held, held 9", |m| m.head[HELD] = 9),
    ("every slot held, a mark", |m| m.marks[0] = 1),
    ("every slot held, one key twice", |m| m.slots[0][0] = 6),
    ("every slot held, the last handle twice", |m| m.slots[7][0] = 0x6_0000_0000),
    ("every slot held, by_key by descending keys", |m| m.by_key = [0, 1, 2, 3, 4, 5, 6, 7, 0]),
];

fn creations(said: &mut Said) {
    for (size, capacity) in [
        (0, 0), (1, 0), (1, 1), (1, 2), (8, 8), (8, 9), (8, 0x1_0000_0003), (8, u64::MAX), (63, 63), (64, 64), (65, 65), (127, 0),
        (128, 128), (4095, 4095), (4096, 4096), (4096, 4097), (4097, 5),
    ] {
        said.of_creation(Lengths::of(size), capacity);
    }
    said.of_creation(Lengths { slots: 31, ..EIGHT }, 8);
    said.of_creation(Lengths { slots: 33, ..EIGHT }, 8);
    said.of_creation(Lengths { by_key: 7, ..EIGHT }, 8);
    said.of_creation(Lengths { by_key: 9, ..EIGHT }, 8);
    said.of_creation(Lengths { by_handle: 7, ..EIGHT }, 8);
    said.of_creation(Lengths { by_handle: 9, ..EIGHT }, 8);
    said.of_creation(Lengths { marks: 0, ..EIGHT }, 8);
    said.of_creation(Lengths { marks: 2, ..EIGHT }, 8);
    said.of_creation(Lengths { by_key: 7, ..EIGHT }, 99);
}

/// What has to be said, a line for each memory.
fn worked_out() -> String {
    let script = concat!(env!("CARGO_MANIFEST_DIR"), "/../../tools/damaged-answers");
    let done = Command::new(script).output().expect("tools/damaged-answers is run");
    assert!(done.status.success(), "{}: {}", done.status, String::from_utf8_lossy(&done.stderr));
    String::from_utf8(done.stdout).expect("text")
}

#[test]
fn answers_as_worked_out() {
    let mut said = Said(Vec::new());
    words(&mut said);
    links(&mut said);
    swaps(&mut said);
    marks(&mut said);
    fields(&mut said);
    numbers(&mut said);
    said.of_each(&POOL, LENGTHS);
    said.of_each(&POOL, RINGS);
    said.of_each(&POOL, NAMES);
    said.of_each(&pool_without_slot_7(), REMOVALS);
    said.of_each(&EMPTY, OF_EMPTY);
    said.of_each(&FULL, OF_FULL);
    creations(&mut said);
    let worked_out = worked_out();
    for (line, expected) in said.0.iter().zip(worked_out.lines()) {
        assert_eq!(line, expected);
    }
    assert_eq!(said.0.len(), worked_out.lines().count());
}
