//! Calls whose outcome in the Rust depends on the order of its map: `truncate`,
//! `remove_frames` and `clear` that are refused, and a `check_spill` with more
//! spillable pages than asked for.
//!
//! This is the one place that works an outcome out: the one of the walk by
//! ascending key, from the Rust's pool before the call. It also tells whether an
//! outcome is the one of some order.

use crate::answer::{code, Answer, State};
use crate::driver::Driver;
use crate::record::{flag, Operation, PageRecord, Record};

/// What a call comes to: its answer, and the state after it.
#[derive(Clone, Debug, PartialEq, Eq)]
pub struct After {
    pub answer: Answer,
    pub state: State,
}

/// A call that walks over the keys, and the pool before it.
pub struct Walk {
    operation: Operation,
    /// The key or frame above which pages go, or the most to select.
    number: u64,
    /// `clear` takes dirty pages too.
    dirty_too: bool,
    before: State,
    /// By ascending key.
    pages: Vec<HeldPage>,
}

#[derive(Clone, Copy)]
struct HeldPage {
    key: u32,
    handle: u32,
    record: PageRecord,
}

impl Walk {
    /// The walk that a record asks for, if it asks for one.
    pub fn asked_for(record: &Record, driver: &Driver) -> Option<Self> {
        let operation = record.good_operation()?;
        if !operation.removes_in_a_walk() && operation != Operation::CheckSpill {
            return None;
        }
        let before = driver.state()?;
        let held = before.ring.iter().map(|entry| {
            let (handle, record) = driver.stored(entry.key).expect("it is in the ring");
            HeldPage {
                key: entry.key,
                handle,
                record,
            }
        });
        let mut pages: Vec<HeldPage> = held.collect();
        pages.sort_unstable_by_key(|page| page.key);
        Some(Self {
            operation,
            number: record.number,
            dirty_too: record.option == 1,
            before,
            pages,
        })
    }

    /// The outcome by ascending key, if the order matters. Whether a spill is
    /// needed at all is for the Rust's answer to say.
    pub fn by_ascending_key(&self, rusts: &Answer) -> Option<After> {
        if self.operation == Operation::CheckSpill {
            let spillable: Vec<_> = self.pages.iter().filter(|page| page.spillable()).collect();
            let most = usize::try_from(self.number).unwrap_or(usize::MAX);
            let depends = rusts.code == code::DONE && spillable.len() > most;
            return depends.then(|| self.selected(&spillable[..most]));
        }
        let at = self
            .pages
            .iter()
            .position(|page| self.refusal(page).is_some())?;
        let met = self.pages[..at].iter();
        let removed: Vec<_> = met.filter(|page| self.removes(page)).collect();
        Some(self.refused(&removed, &self.pages[at]))
    }

    /// Whether some order of the keys gives this outcome. The answer has its list
    /// by key, as the driver's has.
    pub fn some_order_gives(&self, after: &After) -> bool {
        let listed: Vec<_> = self
            .pages
            .iter()
            .filter(|page| after.answer.list.contains(&page.handle))
            .collect();
        let given = if self.operation == Operation::CheckSpill {
            if listed.len() as u64 != self.number || !listed.iter().all(|page| page.spillable()) {
                return false;
            }
            self.selected(&listed)
        } else {
            let refuser = self.pages.iter().find(|page| {
                u64::from(page.key) == after.answer.value && self.refusal(page).is_some()
            });
            match refuser {
                Some(refuser) if listed.iter().all(|page| self.removes(page)) => {
                    self.refused(&listed, refuser)
                }
                _ => return false,
            }
        };
        given == *after
    }

    /// The keys of these handles, ascending.
    pub fn keys_of(&self, handles: &[u32]) -> Vec<u32> {
        let listed = self
            .pages
            .iter()
            .filter(|page| handles.contains(&page.handle));
        listed.map(|page| page.key).collect()
    }

    /// Whether the walk would delete this page: chosen, and nothing refuses it.
    fn removes(&self, page: &HeldPage) -> bool {
        // A `clear` that is refused removes nothing.
        self.operation != Operation::Clear && self.chooses(page) && page.refusal().is_none()
    }

    /// The code with which this page stops the walk.
    fn refusal(&self, page: &HeldPage) -> Option<u8> {
        match self.operation {
            Operation::Clear => (page.has(flag::DIRTY) && !self.dirty_too).then_some(code::DIRTY),
            _ if self.chooses(page) => page.refusal(),
            _ => None,
        }
    }

    /// Document 01's rule 11: what `truncate` and `remove_frames` delete.
    fn chooses(&self, page: &HeldPage) -> bool {
        if self.operation == Operation::Truncate {
            return u64::from(page.key) > self.number;
        }
        page.has(flag::WAL_TAG) && !page.has(flag::DIRTY) && page.record.frame > self.number
    }

    /// The outcome if these pages went, by ascending key, before this one refused.
    fn refused(&self, removed: &[&HeldPage], refuser: &HeldPage) -> After {
        let mut state = self.before.clone();
        // The ring is listed from the hand, so the hand moves on by itself.
        state
            .ring
            .retain(|entry| removed.iter().all(|page| page.key != entry.key));
        // Only clean pages go, and of these all but page 1 count.
        let counted = removed.iter().filter(|page| page.key != 1).count();
        state.estimate = state.estimate.saturating_sub(counted);
        let code = self.refusal(refuser).expect("this page refuses");
        after(code, refuser.key.into(), removed, state)
    }

    /// The outcome if these pages were selected.
    fn selected(&self, selected: &[&HeldPage]) -> After {
        let number = selected.len() as u64;
        after(code::DONE, number, selected, self.before.clone())
    }
}

fn after(code: u8, value: u64, listed: &[&HeldPage], state: State) -> After {
    let answer = Answer {
        code,
        value,
        passed: 0,
        held: state.ring.len(),
        hand: state.ring.first().map(|entry| entry.key),
        list: listed.iter().map(|page| page.handle).collect(),
    };
    After { answer, state }
}

impl HeldPage {
    fn has(&self, flag: u8) -> bool {
        self.record.flags & flag != 0
    }

    /// Document 01's rule 8.
    fn refusal(&self) -> Option<u8> {
        if self.has(flag::LOCKED) {
            Some(code::LOCKED)
        } else if self.has(flag::DIRTY) {
            Some(code::DIRTY)
        } else if self.record.pins > 0 {
            Some(code::PINNED)
        } else {
            None
        }
    }

    /// Document 01's rule 14.
    fn spillable(&self) -> bool {
        self.record.flags & (flag::DIRTY | flag::SPILLED | flag::LOCKED) == flag::DIRTY
            && self.record.pins == 0
            && self.record.holders == 0
            && self.record.overflow_cells == 0
            && self.key != 1
    }
}
