//! The monitor without the marks of pages: rows, picks, counts, aggregations and slots.

use crate::engine::{Engine, Setting};
use crate::filter::passing_of;
use crate::merge::{merge, shrink};
use crate::pick::Picks;
use crate::random::{Jump, Random};
use crate::rows::Rows;
use crate::scheme::SLOTS;
use crate::setup::Setup;
use crate::slot::Slot;
use crate::space::{pages_of, Attrs, Range, Space};
use crate::split::Split;

#[derive(Clone, Copy, Debug, PartialEq, Eq)]
pub enum Phase {
    Idle,
    Clearing(u32),
    Armed,
    Checking(u32),
    Void,
    Due,
}

impl Phase {
    pub fn name(self) -> &'static str {
        match self {
            Phase::Idle => "idle",
            Phase::Clearing(_) => "clearing",
            Phase::Armed => "armed",
            Phase::Checking(_) => "checking",
            Phase::Void => "void",
            Phase::Due => "due",
        }
    }
}

pub struct Monitor {
    pub version: u8,
    pub unit: u32,
    pub cap: u32,
    pub space: Space,
    pub attrs: Attrs,
    pub ranges: Vec<Range>,
    /// The pages of all ranges.
    pub total: u32,
    pub rows: Rows,
    pub phase: Phase,
    pub ticks: u64,
    pub checks: u64,
    pub hits: u64,
    pub slots: [Slot; SLOTS],
    /// What the last aggregation did for the slots.
    pub engine: Engine,
    pub threshold: u32,
    pub(crate) picks: Picks,
    /// Room for rows that replace others.
    pub(crate) spare: Rows,
    random: Random,
    /// The jump over the words of an aggregation.
    pub(crate) words_of_split: Jump,
    /// The passes since the last aggregation.
    since: u32,
    /// The rows at the start of the last split.
    before: usize,
}

impl Monitor {
    pub fn new(setup: Setup) -> Monitor {
        let Setup { version, seed, unit, cap, attrs, space, ranges, schemes } = setup;
        let mut rows = Rows::divided(&ranges, attrs.min, unit);
        shrink(&mut rows, attrs.max as usize);
        let mut slots: [Slot; SLOTS] = Default::default();
        for (slot, scheme) in schemes {
            let passing = passing_of(&scheme, &ranges, &space);
            slots[slot as usize].set(scheme, passing);
        }
        Monitor {
            version,
            unit,
            cap,
            space,
            attrs,
            total: pages_of(&ranges),
            ranges,
            rows,
            phase: Phase::Idle,
            ticks: 0,
            checks: 0,
            hits: 0,
            slots,
            engine: Engine::default(),
            threshold: 0,
            picks: Picks::default(),
            spare: Rows::default(),
            random: Random::new(seed),
            words_of_split: Jump::of(2 * attrs.max as u64),
            since: 0,
            before: 0,
        }
    }

    /// The random words that were drawn so far.
    pub fn drawn(&self) -> u64 {
        self.random.drawn()
    }

    /// The number of the pass that is under way, or that comes next.
    pub fn pass(&self) -> u64 {
        self.ticks + 1
    }

    /// The picks of the pass under way, one of each row.
    pub fn picks(&self) -> &[u32] {
        &self.picks.pages
    }

    pub fn prepare(&mut self) {
        self.picks.draw(&self.rows, &mut self.random);
    }

    /// Ends a pass with what the loads of its picks found, 0 or 1 each.
    pub fn observe(&mut self, loaded: &[u8]) {
        let mut hits = 0;
        for (count, &hit) in self.rows.count.iter_mut().zip(loaded) {
            *count += hit as u32;
            hits += hit as u32;
        }
        self.checks += self.rows.len() as u64;
        self.hits += hits as u64;
        self.end_pass();
    }

    /// Ends a void pass.
    pub fn observe_void(&mut self) {
        self.end_pass();
    }

    fn end_pass(&mut self) {
        self.ticks += 1;
        self.since += 1;
        self.phase = if self.since >= self.attrs.aggr { Phase::Due } else { Phase::Idle };
    }

    /// The first half of an aggregation, up to its report.
    pub fn aggregate(&mut self) {
        self.threshold = self.rows.count.iter().fold(0, |most, &count| most.max(count)) / 10;
        self.age();
        let limit = (self.total / self.attrs.min).max(self.unit);
        merge(&mut self.rows, self.threshold, limit);
        let (ranges, total, attrs, unit) = (&self.ranges[..], self.total, self.attrs, self.unit);
        let setting = Setting { tick: self.ticks, ranges, total, attrs, unit };
        self.engine.serve_all(&mut self.slots, &mut self.rows, &setting);
    }

    /// The second half of an aggregation, after its report.
    pub fn split(&mut self) {
        std::mem::swap(&mut self.rows.last, &mut self.rows.count);
        self.rows.count.fill(0);
        let length = self.rows.len();
        let split = Split { unit: self.unit, max: self.attrs.max as usize, before: self.before };
        split.split(&mut self.rows, self.random.clone());
        self.random.skip(2 * self.attrs.max as u64, self.words_of_split);
        self.before = length;
        self.since = 0;
        self.phase = Phase::Idle;
    }

    fn age(&mut self) {
        let (threshold, is_strict) = (self.threshold, self.version == 2);
        let counts = self.rows.count.iter().zip(&self.rows.last);
        for (age, (&count, &last)) in self.rows.age.iter_mut().zip(counts) {
            let is_far = count.abs_diff(last) > threshold;
            let is_other = is_strict & ((count == 0) != (last == 0));
            *age = if is_far | is_other { 0 } else { age.saturating_add(1) };
        }
    }
}
