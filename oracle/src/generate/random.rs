//! Random traces: one seed, one trace.
//!
//! A trace is a row of episodes. Each begins with a creation and has a theme,
//! which says how often each operation comes and how large the pool is, so that
//! rare states (a pool of 256 pages none of which may go, a spill that is needed)
//! are reached and stayed in for a while.

use super::pages::{self, any_frame, Kind};
use super::theme::Theme;
use crate::answer::{code, Mark, Outcome};
use crate::driver::{Driver, WalkOrder};
use crate::record::{flag, Operation, PageRecord, Record};
use crate::rng::Rng;

pub struct Plan {
    pub seed: u64,
    /// How many of a hundred records the Rust isn't asked about.
    pub marks_percent: u32,
    /// Leave out answers that depend on the Rust's map order.
    pub exact: bool,
}

/// How often a record is drawn anew before something plain is taken instead.
const TRIES: u32 = 16;

/// A trace with marks begins with two calls of each operation before creation.
const OPENING: usize = 2 * Operation::ALL.len();

/// A run of records over one range of keys.
struct Episode {
    theme: Theme,
    /// Records still to come.
    left: u64,
    first_key: u32,
    keys: u64,
    /// How many of a hundred new pages may not go.
    stuck_percent: u32,
}

pub struct Trace {
    plan: Plan,
    rng: Rng,
    /// Runs the Rust beside the trace, to know what is held.
    driver: Driver,
    episode: Episode,
    /// The keys of hits that weren't released yet. Their pages may be gone.
    to_release: Vec<u32>,
    /// The key of the last page that was given a crowd of holders.
    crowded: Option<u32>,
    written: usize,
}

impl Trace {
    pub fn new(plan: Plan) -> Self {
        let mut rng = Rng::new(plan.seed);
        let (mut episode, _) = Episode::draw(&mut rng);
        // The first record is a creation.
        episode.left = 0;
        Self {
            plan,
            rng,
            driver: Driver::new(WalkOrder::AsRemoved),
            episode,
            to_release: Vec::new(),
            crowded: None,
            written: 0,
        }
    }

    pub fn next_record(&mut self) -> Record {
        let record = if self.plan.marks_percent > 0 && self.written < OPENING {
            self.before_creation()
        } else if self.episode.left == 0 {
            self.begin_episode()
        } else if self.rng.percent(self.plan.marks_percent) {
            self.outside_domain()
        } else {
            self.in_domain()
        };
        self.episode.left = self.episode.left.saturating_sub(1);
        self.written += 1;
        if let Outcome::Answer(answer) = self.driver.apply(&record) {
            if answer.code == code::DONE {
                self.keep_in_mind(&record);
            }
        }
        record
    }

    /// Keeps in mind which pages the call gave holders.
    fn keep_in_mind(&mut self, record: &Record) {
        let operation = record.good_operation().expect("the call was done");
        match operation {
            Operation::Create => self.to_release.clear(),
            Operation::Get | Operation::Peek => self.to_release.push(record.key),
            _ if operation.takes_page_record() && record.holders >= pages::CROWD => {
                self.crowded = Some(record.key);
            }
            _ => {}
        }
    }

    fn begin_episode(&mut self) -> Record {
        let (episode, capacity) = Episode::draw(&mut self.rng);
        self.episode = episode;
        Record {
            number: capacity,
            ..self.blank(Operation::Create)
        }
    }

    /// Each operation in turn, then each with a fault of its own; a creation only
    /// with a capacity that is refused.
    fn before_creation(&mut self) -> Record {
        let operation = Operation::ALL[self.written % Operation::ALL.len()];
        let mut record = self.call(operation);
        if operation == Operation::Create {
            record.number = self.rng.pick(&TOO_LARGE);
        } else if self.written >= Operation::ALL.len() {
            self.spoil(&mut record);
        }
        match self.driver.mark(&record) {
            Some(_) => record,
            None => self.bad_record(),
        }
    }

    fn in_domain(&mut self) -> Record {
        for _ in 0..TRIES {
            let operation = self.operation();
            let record = self.call(operation);
            let answered = self.driver.mark(&record).is_none();
            if answered && (!self.plan.exact || self.driver.is_exact(&record)) {
                return record;
            }
        }
        self.call(Operation::NotifyDirty)
    }

    /// An operation of the theme, or one for a crowded page. A release comes seldom
    /// if there is no hit to release.
    fn operation(&mut self) -> Operation {
        use Operation::*;
        if self.crowded_key().is_some() && self.rng.one_in(2) {
            return self.rng.pick(&[Get, Peek, WriteRecord, Release]);
        }
        loop {
            let operation = self.rng.weighted(self.episode.theme.operations());
            if operation != Release || !self.to_release.is_empty() || self.rng.one_in(10) {
                return operation;
            }
        }
    }

    /// A record with a mark. Now and then two faults meet, so that the order of
    /// the tests shows.
    fn outside_domain(&mut self) -> Record {
        for _ in 0..TRIES {
            let operation = self.rng.pick(&Operation::ALL);
            let mut record = self.call(operation);
            self.spoil(&mut record);
            if self.rng.one_in(4) {
                self.spoil(&mut record);
            }
            match self.driver.mark(&record) {
                Some(mark) if mark != Mark::OtherRecord => return record,
                _ => {}
            }
        }
        self.bad_record()
    }

    fn number_of_no_operation(&mut self) -> u8 {
        let least = Operation::ALL.len() as u64;
        self.rng.between(least, u8::MAX.into()) as u8
    }

    fn pick_operation(&mut self, operations: &[Operation]) -> u8 {
        self.rng.pick(operations).number()
    }

    fn bad_record(&mut self) -> Record {
        Record {
            operation: self.number_of_no_operation(),
            ..Record::default()
        }
    }

    /// A record without a call's own fields. Now and then all the others hold
    /// something, since unused fields are to be ignored.
    fn blank(&mut self, operation: Operation) -> Record {
        if !self.rng.one_in(8) {
            return Record::new(operation);
        }
        Record {
            operation: operation.number(),
            flags: self.rng.draw() as u8,
            pins: self.rng.draw() as u16,
            key: self.rng.draw() as u32,
            handle: self.rng.draw() as u32,
            holders: self.rng.draw() as u16,
            overflow_cells: self.rng.draw() as u8,
            option: self.rng.below(2) as u8,
            number: self.rng.draw(),
            tail: 0,
        }
    }

    fn call(&mut self, operation: Operation) -> Record {
        let mut record = self.blank(operation);
        match operation {
            Operation::Create | Operation::Resize => {
                record.number = self.episode.theme.capacity(&mut self.rng);
            }
            Operation::Insert | Operation::ForceInsert | Operation::ForceUpsert => {
                return self.insertion(operation, record);
            }
            Operation::Delete | Operation::NotifyDirty | Operation::NotifySpilled => {
                record.key = self.often_present_key();
            }
            Operation::Get => record.key = self.often_crowded_key(),
            Operation::Peek => {
                record.key = self.often_crowded_key();
                record.option = self.rng.below(2) as u8;
            }
            Operation::Release => record.key = self.often_held_key(),
            Operation::Truncate => record.number = self.key_limit(),
            Operation::RemoveFrames => record.number = self.frame_limit(),
            Operation::Clear => record.option = self.rng.below(2) as u8,
            Operation::WriteRecord => {
                record.key = self.often_crowded_key();
                let page = self.rewritten(record.key);
                return record.with_page(&page);
            }
            Operation::CheckSpill => record.number = self.most_to_select(),
            Operation::SetSpill => record.option = u8::from(self.rng.percent(75)),
            Operation::EvictOne => {}
        }
        record
    }

    /// An insertion that stays in the domain, except that a pool may be full.
    fn insertion(&mut self, operation: Operation, blank: Record) -> Record {
        let key = if self.rng.percent(self.episode.theme.present_percent()) {
            self.often_present_key()
        } else {
            self.often_absent_key()
        };
        let (handle, page) = match self.driver.stored(key) {
            Some(stored) => self.on_present_key(operation, stored),
            None => (self.fresh_handle(), self.new_page()),
        };
        Record {
            key,
            handle,
            ..blank
        }
        .with_page(&page)
    }

    fn on_present_key(
        &mut self,
        operation: Operation,
        (handle, stored): (u32, PageRecord),
    ) -> (u32, PageRecord) {
        let stays_as_it_is = operation != Operation::ForceUpsert && !stored.is_stale();
        if stays_as_it_is {
            // The cache keeps its record, whatever comes with the handle.
            let other_record = !self.plan.exact && self.rng.one_in(2);
            let page = if other_record {
                self.new_page()
            } else {
                stored
            };
            (handle, page)
        } else if self.rng.percent(40) {
            (handle, stored)
        } else {
            (self.fresh_handle(), self.new_page())
        }
    }

    /// Makes the record one that the Rust isn't asked about, if the state allows.
    fn spoil(&mut self, record: &mut Record) {
        use Operation::*;
        if self.crowded_key().is_some() && self.rng.percent(75) {
            // A holder more than the page can have, if it has all of them.
            record.operation = self.pick_operation(&[Get, Peek]);
            record.key = self.often_crowded_key();
            return;
        }
        match self.rng.below(9) {
            // A record that is bad in itself.
            0 => record.operation = self.number_of_no_operation(),
            1 => record.option = self.rng.between(2, 255) as u8,
            2 => record.tail = 1 << self.rng.below(64),
            // A capacity or flags out of range.
            3 => {
                record.operation = self.pick_operation(&[Create, Resize]);
                record.number = self.rng.pick(&TOO_LARGE);
            }
            4 => {
                record.operation =
                    self.pick_operation(&[Insert, ForceInsert, ForceUpsert, WriteRecord]);
                record.flags = self.rng.between(32, 255) as u8;
            }
            // A handle that stands under another key.
            5 => {
                record.operation = self.pick_operation(&[Insert, ForceInsert, ForceUpsert]);
                record.flags &= flag::ALL;
                record.key = self.any_key();
                let neighbour = self.often_present_key();
                if let Some((handle, _)) = self.driver.stored(neighbour) {
                    record.handle = handle;
                }
            }
            // Another page under a key that is present.
            6 => {
                record.operation = self.pick_operation(&[Insert, ForceInsert]);
                record.flags &= flag::ALL;
                record.key = self.often_present_key();
                record.handle = self.fresh_handle();
            }
            // A holder less, of a page that nobody holds.
            7 => {
                record.operation = Release.number();
                record.key = self.often_present_key();
            }
            // One page more than there are slots, if the pool is full.
            _ => {
                record.operation = self.pick_operation(&[ForceInsert, ForceUpsert]);
                record.flags &= flag::ALL;
                record.key = self.often_absent_key();
                record.handle = self.fresh_handle();
            }
        }
    }

    fn any_key(&mut self) -> u32 {
        if self.rng.one_in(24) {
            return self.rng.pick(&[0, 1, 2, u32::MAX]);
        }
        self.episode.first_key + self.rng.below(self.episode.keys) as u32
    }

    fn often_present_key(&mut self) -> u32 {
        self.often_a_key(|driver, key| driver.stored(key).is_some())
    }

    /// The key of a page with a crowd of holders, if it still has them.
    fn crowded_key(&self) -> Option<u32> {
        let key = self.crowded?;
        let (_, page) = self.driver.stored(key)?;
        (page.holders >= pages::CROWD).then_some(key)
    }

    /// A crowded page, of which there are few, or one that is often present.
    fn often_crowded_key(&mut self) -> u32 {
        match self.crowded_key() {
            Some(key) if self.rng.one_in(2) => key,
            _ => self.often_present_key(),
        }
    }

    /// The page of a hit that wasn't released yet, or one that often has holders.
    fn often_held_key(&mut self) -> u32 {
        if self.to_release.is_empty() || self.rng.one_in(8) {
            return self.often_a_key(|driver, key| {
                let stored = driver.stored(key);
                stored.is_some_and(|(_, page)| page.holders > 0)
            });
        }
        let at = self.rng.below(self.to_release.len() as u64) as usize;
        self.to_release.swap_remove(at)
    }

    fn often_absent_key(&mut self) -> u32 {
        self.often_a_key(|driver, key| driver.stored(key).is_none())
    }

    /// A key of the wanted sort, unless a few draws in a row miss.
    fn often_a_key(&mut self, wanted: impl Fn(&Driver, u32) -> bool) -> u32 {
        let mut key = self.any_key();
        for _ in 0..4 {
            if wanted(&self.driver, key) {
                break;
            }
            key = self.any_key();
        }
        key
    }

    /// A handle that stands under no key.
    fn fresh_handle(&mut self) -> u32 {
        loop {
            let handle = match self.rng.below(16) {
                0 => self.rng.pick(&[0, u32::MAX]),
                1..=3 => self.rng.draw() as u32,
                _ => self.rng.between(1, 999) as u32,
            };
            if self.driver.key_of(handle).is_none() {
                return handle;
            }
        }
    }

    fn new_page(&mut self) -> PageRecord {
        let stuck = self.rng.percent(self.episode.stuck_percent);
        let kind = if stuck {
            self.rng.weighted(self.episode.theme.stuck_pages())
        } else {
            self.rng.weighted(&pages::LOOSE)
        };
        kind.draw(&mut self.rng)
    }

    /// A new record for a key's page, or its own with one thing changed. A crowd of
    /// holders mostly stays, the page becoming stale and not stale again.
    fn rewritten(&mut self, key: u32) -> PageRecord {
        let stored = self.driver.stored(key);
        match stored {
            Some((_, page)) if page.holders >= pages::CROWD && self.rng.percent(80) => {
                let kinds = [Kind::Clean, Kind::Clean, Kind::Stale, Kind::StaleRefused];
                PageRecord {
                    holders: page.holders,
                    ..self.rng.pick(&kinds).draw(&mut self.rng)
                }
            }
            Some((_, mut page)) if self.rng.percent(70) => {
                pages::change_one_thing(&mut page, &mut self.rng);
                page
            }
            _ => self.new_page(),
        }
    }

    /// Around keys, around the largest key, and beyond 32 bits.
    fn key_limit(&mut self) -> u64 {
        match self.rng.below(10) {
            0..=3 => {
                let upper_half = self.rng.between(self.episode.keys / 2, self.episode.keys);
                u64::from(self.episode.first_key) + upper_half
            }
            4..=5 => {
                let key = u64::from(self.often_present_key());
                self.rng.between(key.saturating_sub(1), key + 1)
            }
            6..=7 => (1 << 32) + u64::from(self.any_key()),
            _ => self.rng.pick(&[
                0,
                1,
                u64::from(u32::MAX) - 1,
                u64::from(u32::MAX),
                1 << 32,
                u64::MAX,
            ]),
        }
    }

    fn frame_limit(&mut self) -> u64 {
        let key = self.often_present_key();
        match self.driver.stored(key) {
            Some((_, page)) if self.rng.percent(60) => {
                let below = page.frame.saturating_sub(1);
                self.rng.pick(&[below, page.frame])
            }
            _ => any_frame(&mut self.rng),
        }
    }

    fn most_to_select(&mut self) -> u64 {
        match self.rng.below(4) {
            0 => 0,
            1 => self.rng.between(1, 4),
            2 => self.rng.between(1, 300),
            _ => self.rng.pick(&[256, 257, 1 << 32, u64::MAX]),
        }
    }
}

/// Capacities that no pool of 256 slots has.
const TOO_LARGE: [u64; 7] = [257, 258, 4_096, 4_097, 1 << 32, (1 << 32) + 2, u64::MAX];

impl Episode {
    /// An episode and the capacity that it begins with.
    fn draw(rng: &mut Rng) -> (Self, u64) {
        let theme = Theme::draw(rng);
        let capacity = theme.capacity(rng);
        let keys = theme.keys(capacity, rng);
        let last_first_key = (1 << 32) - keys;
        let first_key = match rng.below(8) {
            0..=2 => 0,
            3 => 1,
            4..=5 => last_first_key,
            _ => rng.between(0, last_first_key),
        };
        let episode = Self {
            theme,
            left: theme.length(capacity, rng),
            first_key: first_key as u32,
            keys,
            stuck_percent: theme.stuck_percent(rng),
        };
        (episode, capacity)
    }
}
