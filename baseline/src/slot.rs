//! A slot: its scheme, its watermarks, its statistics, its window and its cost.

use crate::filter::Passing;
use crate::scheme::Scheme;
use crate::space::PAGE;

pub struct Held {
    pub scheme: Scheme,
    pub active: bool,
    pub tried: u64,
    pub applied: u64,
    pub exceeds: u64,
    /// What passes, for the ranges in force; found again where they change.
    pub passing: Passing,
}

#[derive(Default)]
pub struct Slot {
    pub held: Option<Box<Held>>,
    /// The tick at which the window began, and the pages charged since.
    pub start: u64,
    pub charged: u64,
    pub cost_pages: u64,
    pub cost_nanoseconds: u64,
}

impl Slot {
    pub fn set(&mut self, scheme: Scheme, passing: Passing) {
        let active = scheme.marks.is_none();
        self.held = Some(Box::new(Held { scheme, active, tried: 0, applied: 0, exceeds: 0, passing }));
    }

    pub fn take_metric(&mut self, metric: u32) {
        if let Some(held) = &mut self.held {
            if let Some(marks) = held.scheme.marks {
                if metric > marks.high || metric < marks.low {
                    held.active = false;
                } else if metric < marks.mid {
                    held.active = true;
                }
            }
        }
    }

    pub fn take_cost(&mut self, nanoseconds: u64) {
        self.cost_nanoseconds = self.cost_nanoseconds.saturating_add(nanoseconds);
    }

    /// Begins a new window if the reset interval of the quota has passed.
    pub fn turn(&mut self, tick: u64) {
        let reset = self.held.as_ref().and_then(|it| it.scheme.quota).map(|it| it.reset as u64);
        if reset.map_or(false, |reset| tick - self.start >= reset) {
            self.start = tick;
            self.charged = 0;
        }
    }

    /// The pages that are left of the quota; nothing without one.
    pub fn left(&self) -> Option<u64> {
        let quota = self.held.as_ref()?.scheme.quota?;
        let mut effective = quota.bytes / PAGE;
        if let (Some(time), true) = (quota.time, self.cost_pages > 0 && self.cost_nanoseconds > 0) {
            let pages = time as u128 * self.cost_pages as u128 / self.cost_nanoseconds as u128;
            effective = effective.min(u64::try_from(pages).unwrap_or(u64::MAX));
        }
        Some(effective.saturating_sub(self.charged))
    }

    pub fn charge(&mut self, pages: u64) {
        self.charged += pages;
        self.cost_pages += pages;
    }
}

#[cfg(test)]
mod tests {
    use super::*;
    use crate::scheme_line;

    fn slot_of(line: &str, version: u8) -> Slot {
        let mut slot = Slot::default();
        slot.set(scheme_line::read(line.as_bytes(), version).unwrap().1, None);
        slot
    }

    #[test]
    fn watermarks_are_those_of_the_page() {
        let mut slot = slot_of("scheme 0 stat marks=500,400,200", 1);
        let mut active = vec![slot.held.as_ref().unwrap().active];
        for metric in [450, 399, 400, 500, 501, 400, 200, 199] {
            slot.take_metric(metric);
            active.push(slot.held.as_ref().unwrap().active);
        }
        assert_eq!(active, [false, false, true, true, true, false, false, true, false]);
    }

    #[test]
    fn time_quotas_are_those_of_the_page() {
        for (pages, nanoseconds, left) in
            [(0, 0, 6), (5, 0, 6), (0, 9000, 6), (5, 5000, 3), (5, 1000, 6), (7, 9000, 2), (1, 3001, 0)]
        {
            let mut slot = slot_of("scheme 0 stat quota=24576,20 time=3000", 2);
            slot.cost_pages = pages;
            slot.take_cost(nanoseconds);
            assert_eq!(slot.left(), Some(left));
        }
    }
}
