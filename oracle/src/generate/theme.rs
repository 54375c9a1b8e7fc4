//! What an episode of a random trace is about.

use super::pages::Kind;
use crate::driver::SLOTS;
use crate::record::Operation::{self, *};
use crate::rng::Rng;

#[derive(Clone, Copy, Debug, PartialEq, Eq)]
pub enum Theme {
    /// Every call, mostly on small pools.
    Mixed,
    /// Insertions into full pools, with touches between them.
    Evictions,
    /// Dirty pages, notifications and spills.
    Spills,
    /// Forced insertions of pages that may not go, up to the last slot.
    FullPool,
}

// Releases weigh more than the hits that they follow. Without a hit to release few
// of them are written.

const MIXED: [(Operation, u32); Operation::ALL.len()] = [
    (Create, 1),
    (Insert, 44),
    (ForceInsert, 18),
    (ForceUpsert, 17),
    (Get, 30),
    (Peek, 12),
    (Delete, 14),
    (Resize, 9),
    (Truncate, 4),
    (RemoveFrames, 4),
    (Clear, 2),
    (NotifyDirty, 8),
    (NotifySpilled, 8),
    (WriteRecord, 24),
    (CheckSpill, 8),
    (EvictOne, 14),
    (SetSpill, 2),
    (Release, 36),
];

const EVICTIONS: [(Operation, u32); 11] = [
    (Insert, 96),
    (ForceInsert, 8),
    (ForceUpsert, 8),
    (Get, 64),
    (Peek, 20),
    (Delete, 4),
    (Resize, 3),
    (Truncate, 1),
    (WriteRecord, 12),
    (EvictOne, 12),
    (Release, 80),
];

const SPILLS: [(Operation, u32); 17] = [
    (Insert, 30),
    (ForceInsert, 30),
    (ForceUpsert, 12),
    (Get, 12),
    (Peek, 4),
    (Delete, 4),
    (Resize, 4),
    (Truncate, 1),
    (RemoveFrames, 2),
    (Clear, 1),
    (NotifyDirty, 20),
    (NotifySpilled, 8),
    (WriteRecord, 28),
    (CheckSpill, 40),
    (EvictOne, 4),
    (SetSpill, 2),
    (Release, 20),
];

const FULL_POOL: [(Operation, u32); 13] = [
    (Insert, 10),
    (ForceInsert, 100),
    (ForceUpsert, 40),
    (Get, 10),
    (Peek, 4),
    (Delete, 3),
    (Resize, 2),
    (RemoveFrames, 1),
    (NotifyDirty, 2),
    (WriteRecord, 8),
    (CheckSpill, 4),
    (EvictOne, 4),
    (Release, 12),
];

/// Pages that no sweep takes.
const STUCK: [(Kind, u32); 5] = [
    (Kind::Dirty, 3),
    (Kind::Locked, 2),
    (Kind::Pinned, 2),
    (Kind::Held, 2),
    (Kind::Anything, 1),
];

const MOSTLY_DIRTY: [(Kind, u32); 3] = [(Kind::Dirty, 12), (Kind::Held, 1), (Kind::Anything, 1)];

impl Theme {
    pub fn draw(rng: &mut Rng) -> Self {
        rng.weighted(&[
            (Theme::Mixed, 10),
            (Theme::Evictions, 6),
            (Theme::Spills, 6),
            (Theme::FullPool, 1),
        ])
    }

    /// The operations with their weights.
    pub fn operations(self) -> &'static [(Operation, u32)] {
        match self {
            Theme::Mixed => &MIXED,
            Theme::Evictions => &EVICTIONS,
            Theme::Spills => &SPILLS,
            Theme::FullPool => &FULL_POOL,
        }
    }

    /// Capacities from 0 to 256, small ones more often.
    pub fn capacity(self, rng: &mut Rng) -> u64 {
        match (self, rng.below(20)) {
            (_, 0) => rng.pick(&[0, 1, 255, SLOTS]),
            (Theme::FullPool, _) => rng.below(SLOTS + 1),
            (_, 1) => rng.between(41, SLOTS),
            (_, 2..=5) => rng.between(9, 40),
            _ => rng.below(9),
        }
    }

    /// How many keys the episode uses: more than fit.
    pub fn keys(self, capacity: u64, rng: &mut Rng) -> u64 {
        match self {
            Theme::FullPool => rng.between(SLOTS + 40, 2 * SLOTS),
            _ => capacity + rng.between(2, capacity + 6),
        }
    }

    /// How many of a hundred insertions look for a key that is present.
    pub fn present_percent(self) -> u32 {
        match self {
            Theme::FullPool => 10,
            _ => 50,
        }
    }

    /// Records of the episode: enough to fill its pool and turn it over.
    pub fn length(self, capacity: u64, rng: &mut Rng) -> u64 {
        match self {
            Theme::Mixed => rng.between(20, 60) + 6 * capacity,
            Theme::Evictions => rng.between(30, 80) + 8 * capacity,
            Theme::Spills => rng.between(30, 80) + 6 * capacity,
            Theme::FullPool => rng.between(500, 900),
        }
    }

    /// How many of a hundred new pages may not go.
    pub fn stuck_percent(self, rng: &mut Rng) -> u32 {
        match self {
            Theme::Mixed => rng.pick(&[0, 10, 30, 60, 90]),
            Theme::Evictions => rng.pick(&[0, 10, 20, 40]),
            Theme::Spills => rng.pick(&[50, 80, 90, 100]),
            Theme::FullPool => rng.pick(&[80, 98, 100]),
        }
    }

    pub fn stuck_pages(self) -> &'static [(Kind, u32)] {
        match self {
            Theme::Spills => &MOSTLY_DIRTY,
            _ => &STUCK,
        }
    }
}
