//! Carrying out commits on a monitor.

use crate::commit::{Answer, Change, Commit, Refusal};
use crate::filter::passing_of;
use crate::merge::shrink;
use crate::monitor::{Monitor, Phase};
use crate::random::Jump;
use crate::scheme::SLOTS;
use crate::space::{pages_of, Range, RangeLine};
use crate::split::update;

impl Monitor {
    pub fn commit(&mut self, commit: &Commit) -> Answer {
        match self.checked(commit) {
            Ok(ranges) => Answer::Ok { void: self.carry_out(commit, ranges), rows: self.rows.len() as u32 },
            Err(refusal) => Answer::Refused(refusal),
        }
    }

    /// The new ranges of a commit, if it has some, or why it is refused.
    fn checked(&self, commit: &Commit) -> Result<Vec<Range>, Refusal> {
        match self.phase {
            Phase::Clearing(done) => return Err(Refusal::Busy { next: done }),
            Phase::Checking(done) => return Err(Refusal::Busy { next: self.rows.len() as u32 + done }),
            _ => {}
        }
        let ranges = self.checked_ranges(&commit.ranges)?;
        let attrs = commit.attrs.unwrap_or(self.attrs);
        let number = if ranges.is_empty() { self.ranges.len() } else { ranges.len() } as u32;
        if number > attrs.max {
            return Err(Refusal::RangesOverMax { ranges: number, max: attrs.max });
        }
        if let Some(why) = attrs.fault() {
            return Err(Refusal::BadAttrs(why));
        }
        if attrs.max > self.cap {
            return Err(Refusal::OverCap { max: attrs.max, cap: self.cap });
        }
        let why = match &commit.change {
            Some(Change::Set(slot, scheme)) => scheme.fault(*slot, self.version),
            Some(Change::Drop(slot)) if *slot as usize >= SLOTS => Some("slot-out-of-range"),
            _ => None,
        };
        if let Some(why) = why {
            return Err(Refusal::BadScheme(why));
        }
        match commit.cost {
            Some((slot, _)) if self.version == 1 || slot as usize >= SLOTS => Err(Refusal::BadCost { slot }),
            _ => Ok(ranges),
        }
    }

    fn checked_ranges(&self, lines: &[RangeLine]) -> Result<Vec<Range>, Refusal> {
        let mut ranges = Vec::with_capacity(lines.len().min(self.cap as usize));
        for (index, line) in lines.iter().enumerate() {
            let range = line.checked(&ranges, &self.space, self.unit, self.cap);
            ranges.push(range.map_err(|why| Refusal::BadRange { index: index as u32, why })?);
        }
        Ok(ranges)
    }

    /// Changes what an accepted commit changes, and says whether that made the pass under way void.
    fn carry_out(&mut self, commit: &Commit, ranges: Vec<Range>) -> bool {
        if let Some(attrs) = commit.attrs {
            self.attrs = attrs;
            self.words_of_split = Jump::of(2 * attrs.max as u64);
        }
        let void = self.lay_out(ranges);
        match &commit.change {
            Some(Change::Set(slot, scheme)) => {
                let passing = passing_of(scheme, &self.ranges, &self.space);
                self.slots[*slot as usize].set(scheme.as_ref().clone(), passing);
            }
            Some(Change::Drop(slot)) => self.slots[*slot as usize].held = None,
            None => {}
        }
        if let Some(metric) = commit.metric {
            self.slots.iter_mut().for_each(|slot| slot.take_metric(metric));
        }
        if let Some((slot, nanoseconds)) = commit.cost {
            self.slots[slot as usize].take_cost(nanoseconds);
        }
        void
    }

    /// Brings the rows into new ranges, if there are some, and to the maximum in force.
    fn lay_out(&mut self, ranges: Vec<Range>) -> bool {
        let max = self.attrs.max as usize;
        if ranges.is_empty() && self.rows.len() <= max {
            return false;
        }
        if ranges.is_empty() {
            let rows = &self.rows;
            self.spare.copy_from(rows);
        } else {
            update(&self.rows, &ranges, self.unit, &mut self.spare);
            self.total = pages_of(&ranges);
            self.ranges = ranges;
            for held in self.slots.iter_mut().filter_map(|slot| slot.held.as_mut()) {
                held.passing = passing_of(&held.scheme, &self.ranges, &self.space);
            }
        }
        shrink(&mut self.spare, max);
        std::mem::swap(&mut self.rows, &mut self.spare);
        if self.rows.lie_as(&self.spare) {
            return false;
        }
        let void = self.phase == Phase::Armed;
        if void {
            self.phase = Phase::Void;
        }
        void
    }
}
