//! One record after the other: what the program has to write, and what it wrote.

use super::history::History;
use super::lines::{text, Lines, Pair};
use super::report::{first_difference, Difference, Failure};
use super::summary::{Summary, Way};
use super::walk::{After, Walk};
use super::{marks, words, Form};
use crate::answer::{Answer, Mark, Outcome, State, NO_CACHE};
use crate::driver::{Driver, WalkOrder};
use crate::record::{Operation, Record};
use std::io::BufRead;

/// What a difference is called if it lies with the Rust alone.
const NO_ORDER: &str = "the Rust's outcome, which no key order gives";
const OTHER_DELETIONS: &str = "the state after the Rust's deletions by ascending key";

pub struct Comparer {
    driver: Driver,
    form: Form,
    /// What the driver did since the last creation.
    history: History,
    /// The two pools may differ, until the next creation.
    apart: bool,
    summary: Summary,
    expected: Pair,
    written: Pair,
    /// The state line before this record.
    before: Vec<u8>,
}

/// How the lines that the program has to write were found.
struct Expected {
    way: Way,
    code: u8,
    /// The keys that a walk by ascending key removes, if the Rust removed others.
    deletions: Option<Vec<u32>>,
}

impl Comparer {
    pub fn new(form: Form) -> Self {
        let mut comparer = Self {
            driver: Driver::new(WalkOrder::ByKey),
            form,
            history: History::default(),
            apart: false,
            summary: Summary::default(),
            expected: Pair::default(),
            written: Pair::default(),
            before: Vec::new(),
        };
        comparer.expected.set_state(None);
        comparer
    }

    /// Nothing if no record came.
    pub fn into_summary(self) -> Option<Summary> {
        let came = self.summary.records() > 0 || self.summary.last_is_short;
        came.then_some(self.summary)
    }

    pub fn compare_record<R: BufRead>(
        &mut self,
        record: &Record,
        lines: &mut Lines<R>,
    ) -> Result<(), Failure> {
        self.read_lines(lines)?;
        if self.apart && !self.creates(record) {
            return self.pass_over(record);
        }
        self.apart = false;
        let walk = Walk::asked_for(record, &self.driver);
        let outcome = self.driver.apply(record);
        if outcome == Outcome::Mark(Mark::OtherRecord) {
            self.apart = true;
            return self.pass_over(record);
        }
        std::mem::swap(&mut self.before, &mut self.expected.state);
        let expected = self
            .expect(&outcome, walk)
            .map_err(|what| self.difference(what, record, &outcome))?;
        if !self.agrees() {
            let what = first_difference(&self.expected, &self.written);
            return Err(self.difference(what, record, &outcome));
        }
        if let Outcome::Answer(_) = outcome {
            self.history.add(record);
        }
        if let Some(keys) = &expected.deletions {
            self.follow(keys)
                .map_err(|what| self.difference(what, record, &outcome))?;
        }
        self.summary.count(expected.way, record, expected.code);
        Ok(())
    }

    /// Sets the lines that the program has to write.
    fn expect(&mut self, outcome: &Outcome, walk: Option<Walk>) -> Result<Expected, &'static str> {
        let state = self.driver.state();
        let (way, code) = match outcome {
            Outcome::Mark(mark) => {
                let answer = marks::answer(*mark, state.as_ref());
                self.expected.set(&answer, state.as_ref());
                (Way::Mark, answer.code)
            }
            Outcome::Answer(rusts) => {
                if let Some(walk) = walk {
                    if let Some(ascending) = walk.by_ascending_key(rusts) {
                        return self.expect_walk(&walk, &ascending, rusts, state);
                    }
                }
                self.expected.set(rusts, state.as_ref());
                (Way::Exactly, rusts.code)
            }
        };
        Ok(Expected {
            way,
            code,
            deletions: None,
        })
    }

    fn expect_walk(
        &mut self,
        walk: &Walk,
        ascending: &After,
        rusts: &Answer,
        state: Option<State>,
    ) -> Result<Expected, &'static str> {
        self.expected.set(&ascending.answer, Some(&ascending.state));
        let rusts = After {
            answer: rusts.clone(),
            state: state.expect("a walk goes through a cache"),
        };
        if !walk.some_order_gives(&rusts) {
            return Err(NO_ORDER);
        }
        let others = rusts.state != ascending.state;
        Ok(Expected {
            way: Way::UpToKeyOrder,
            code: ascending.answer.code,
            deletions: others.then(|| walk.keys_of(&ascending.answer.list)),
        })
    }

    /// Brings the Rust to the program's pool by these deletions instead of its
    /// own walk's, or gives up until the next creation.
    fn follow(&mut self, keys: &[u32]) -> Result<(), &'static str> {
        let Some(driver) = self.history.with_deletions(keys) else {
            self.apart = true;
            return Ok(());
        };
        self.driver = driver;
        let mut reached = Pair::default();
        reached.set_state(self.driver.state().as_ref());
        if reached.state == self.expected.state {
            Ok(())
        } else {
            Err(OTHER_DELETIONS)
        }
    }

    /// A short last record has the line `bad` and no state.
    pub fn compare_short_record<R: BufRead>(
        &mut self,
        bytes: usize,
        lines: &mut Lines<R>,
    ) -> Result<(), Failure> {
        lines.read(&mut self.written.answer)?;
        self.written.state.clear();
        self.summary.last_is_short = true;
        if self.written.answer == b"bad\n" {
            return Ok(());
        }
        Err(Failure::Short {
            number: self.summary.records() + 1,
            bytes,
            written: self.written.texts().0,
        })
    }

    fn creates(&self, record: &Record) -> bool {
        record.good_operation() == Some(Operation::Create) && self.driver.mark(record).is_none()
    }

    fn read_lines<R: BufRead>(&mut self, lines: &mut Lines<R>) -> Result<(), Failure> {
        lines.read(&mut self.written.answer)?;
        if self.form == Form::AnswersAndStates {
            lines.read(&mut self.written.state)?;
        }
        Ok(())
    }

    fn agrees(&self) -> bool {
        self.written.answer == self.expected.answer
            && (self.form == Form::Answers || self.written.state == self.expected.state)
    }

    /// Nothing can be said of these lines but that they are there.
    fn pass_over(&mut self, record: &Record) -> Result<(), Failure> {
        let state_is_right = self.form == Form::Answers || self.written.has_state_line();
        if self.written.has_answer_line() && state_is_right {
            self.summary.passed_over += 1;
            return Ok(());
        }
        Err(Failure::NotALine {
            number: self.summary.records() + 1,
            call: words::of_record(record),
            written: self.written.texts(),
        })
    }

    fn difference(&self, what: &'static str, record: &Record, outcome: &Outcome) -> Failure {
        let rusts_state = match self.driver.state() {
            Some(state) => state.to_string(),
            None => NO_CACHE.into(),
        };
        let (written_answer, written_state) = self.written.texts();
        let (expected_answer, expected_state) = self.expected.texts();
        Failure::Differs(Box::new(Difference {
            number: self.summary.records() + 1,
            what,
            call: words::of_record(record),
            before: text(&self.before),
            rusts_answer: outcome.to_string(),
            rusts_state,
            expected_answer,
            expected_state,
            written_answer,
            written_state,
        }))
    }
}
