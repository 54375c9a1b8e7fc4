//! The soundness test in plain Rust, pass by pass as crate `soundness` has it, with Rust's bounds tests.
use crate::proved::Pool;
use crate::workload::{Load, Shape};
use page_cache::sys;

fn is_free(pool: &Pool, slot: usize) -> bool {
    pool.marks[slot / 64] >> (slot % 64) & 1 == 1
}

fn lengths_agree(pool: &Pool) -> bool {
    let size = pool.by_key.len();
    (1..=sys::MAX_SLOTS).contains(&size)
        && pool.slots.len() == 4 * size
        && pool.by_handle.len() == size
        && pool.marks.len() == size.div_ceil(64)
}

fn marks_agree(pool: &Pool, held: usize) -> bool {
    let size = pool.by_key.len();
    let beyond = size % 64 != 0 && pool.marks[size / 64] >> (size % 64) != 0;
    !beyond && size - pool.marks.iter().map(|word| word.count_ones() as usize).sum::<usize>() == held
}

/// A walk from the hand that comes back to it after exactly `held` steps, and not before.
fn is_ring(pool: &Pool, held: usize, hand: usize) -> bool {
    let size = pool.by_key.len();
    if held == 0 || hand >= size {
        return held == 0 && hand == 0;
    }
    let mut at = hand;
    for left in (0..held).rev() {
        if is_free(pool, at) {
            return false;
        }
        let next = pool.slots[4 * at + 1] as u32 as usize;
        if next >= size || (pool.slots[4 * next + 1] >> 32) as usize != at {
            return false;
        }
        if next == hand {
            return left == 0;
        }
        at = next;
    }
    false
}

/// Held slots by strictly ascending names, and then zeros.
fn lists(pool: &Pool, order: &[u32], held: usize, name: impl Fn(u64) -> u32) -> bool {
    let mut least = 0;
    for &slot in &order[..held] {
        let slot = slot as usize;
        if slot >= order.len() || is_free(pool, slot) {
            return false;
        }
        let name = u64::from(name(pool.slots[4 * slot]));
        if name < least {
            return false;
        }
        least = name + 1;
    }
    order[held..].iter().all(|&place| place == 0)
}

/// A held slot has a use count up to 3, flags up to 31 and no spare bits; a free one is all zero.
fn is_proper(pool: &Pool, slot: usize) -> bool {
    let words = &pool.slots[4 * slot..4 * slot + 4];
    if is_free(pool, slot) {
        return words == [0; 4];
    }
    let [flags, uses, _, spare, ..] = words[2].to_le_bytes();
    flags <= 31 && uses <= 3 && spare == 0
}

pub fn is_sound(pool: &Pool) -> bool {
    let size = pool.by_key.len();
    let [capacity, held, hand, spill, estimate] = pool.head;
    let in_range = capacity <= size as u64 && held <= size as u64 && spill <= 1 && estimate <= u64::from(u32::MAX);
    lengths_agree(pool)
        && in_range
        && marks_agree(pool, held as usize)
        && is_ring(pool, held as usize, hand as usize)
        && lists(pool, &pool.by_key, held as usize, |names| names as u32)
        && lists(pool, &pool.by_handle, held as usize, |names| (names >> 32) as u32)
        && (0..size).all(|slot| is_proper(pool, slot))
}

/// The two tests say the same of a sound pool and of each of its words damaged in some bits.
pub fn agrees() {
    let mut pool = Pool::ready(70, &Load::new(Shape::Lookup, 70));
    assert!(pool.is_sound() && is_sound(&pool));
    let mut refused = 0;
    for at in 0..pool.slots.len() {
        for bit in (0..64).step_by(5) {
            pool.slots[at] ^= 1 << bit;
            assert_eq!(pool.is_sound(), is_sound(&pool), "word {at}, bit {bit}");
            refused += usize::from(!pool.is_sound());
            pool.slots[at] ^= 1 << bit;
        }
    }
    assert!(refused > pool.slots.len());
}
