//! Page records of every kind that the rules tell apart.

use crate::record::{flag, PageRecord};
use crate::rng::Rng;

#[derive(Clone, Copy, Debug, PartialEq, Eq)]
pub enum Kind {
    Clean,
    Dirty,
    /// Dirty or not: both count as evictable.
    Spilled,
    Locked,
    Pinned,
    Held,
    /// Neither loaded nor locked.
    Stale,
    /// Stale, and a deletion is refused.
    StaleRefused,
    /// Any flags, pins and holders.
    Anything,
}

/// From here on the holders of a page are a crowd: nearly as many as it can have.
pub const CROWD: u16 = u16::MAX - 9;

/// Pages that a sweep takes, and stale ones.
pub const LOOSE: [(Kind, u32); 5] = [
    (Kind::Clean, 12),
    (Kind::Spilled, 3),
    (Kind::Stale, 2),
    (Kind::StaleRefused, 1),
    (Kind::Anything, 1),
];

impl Kind {
    /// A page of this kind. Tag, frame and overflow cells belong to none.
    pub fn draw(self, rng: &mut Rng) -> PageRecord {
        let mut page = PageRecord {
            flags: flag::LOADED,
            ..PageRecord::default()
        };
        match self {
            Kind::Clean => {}
            Kind::Dirty => page.flags |= flag::DIRTY,
            Kind::Spilled => page.flags |= flag::SPILLED | rng.pick(&[0, flag::DIRTY]),
            Kind::Locked => page.flags = flag::LOCKED | rng.pick(&[0, flag::LOADED]),
            Kind::Pinned => page.pins = some_pins(rng),
            Kind::Held => page.holders = some_holders(rng),
            Kind::Stale => page.flags = rng.pick(&[0, flag::SPILLED]),
            Kind::StaleRefused => {
                page.flags = rng.pick(&[0, flag::DIRTY]);
                page.pins = u16::from(page.flags == 0);
            }
            Kind::Anything => {
                page.flags = rng.draw() as u8 & flag::ALL;
                page.pins = rng.pick(&[0, 0, 1]);
                page.holders = rng.pick(&[0, 0, 1]);
            }
        }
        if rng.one_in(3) {
            page.flags |= flag::WAL_TAG;
            page.frame = any_frame(rng);
        }
        if rng.one_in(8) {
            page.overflow_cells = rng.pick(&[1, 2, 255]);
        }
        page
    }
}

/// Takes one thing that holds a page back, or lets go of one.
pub fn change_one_thing(page: &mut PageRecord, rng: &mut Rng) {
    match rng.below(9) {
        0 => page.flags ^= flag::LOADED,
        1 => page.flags ^= flag::LOCKED,
        2..=3 => page.flags ^= flag::DIRTY,
        4 => page.flags ^= flag::SPILLED,
        5 => {
            page.flags ^= flag::WAL_TAG;
            page.frame = any_frame(rng);
        }
        6 => page.pins = if page.pins > 0 { 0 } else { some_pins(rng) },
        7 => {
            page.holders = if page.holders > 0 {
                0
            } else {
                some_holders(rng)
            }
        }
        _ => page.overflow_cells = if page.overflow_cells > 0 { 0 } else { 1 },
    }
}

fn some_pins(rng: &mut Rng) -> u16 {
    if rng.one_in(400) {
        return u16::MAX;
    }
    rng.pick(&[1, 1, 1, 2, 3])
}

/// Seldom many, because each holder is a clone.
fn some_holders(rng: &mut Rng) -> u16 {
    if rng.one_in(100) {
        return rng.pick(&[u16::MAX - 1, u16::MAX]);
    }
    rng.pick(&[1, 1, 1, 2, 3])
}

/// Small frames, where limits meet them, and both ends of 32 and 64 bits.
pub fn any_frame(rng: &mut Rng) -> u64 {
    match rng.below(8) {
        0..=4 => rng.below(9),
        5..=6 => rng.pick(&[
            u64::from(u32::MAX),
            1 << 32,
            1 << 63,
            u64::MAX - 1,
            u64::MAX,
        ]),
        _ => rng.draw(),
    }
}
