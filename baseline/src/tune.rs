//! Quotas that follow goals.

use crate::commit::{Change, Commit};
use crate::fault::{FaultKind, OfLine};
use crate::monitor::Monitor;
use crate::output::Written;
use crate::report::Report;
use crate::run::Mode;
use crate::scheme::{Scheme, SLOTS};
use crate::slot::Slot;
use crate::text_report::TextReport;
use crate::words::{n32, n64, parts};

#[derive(Clone, Copy, Debug, PartialEq, Eq)]
enum Kind {
    Metric,
    Hot,
    Cold,
}

#[derive(Clone, Debug, PartialEq, Eq)]
pub struct Goal {
    slot: usize,
    kind: Kind,
    target: u32,
    low: u64,
    high: u64,
}

impl Goal {
    /// The goal that a word says, `SLOT:KIND:TARGET:LOW:HIGH`.
    pub fn of(word: &[u8]) -> OfLine<Goal> {
        let [slot, kind, target, low, high] = parts(word, b':')?;
        let kind = match kind {
            b"metric" => Kind::Metric,
            b"hot" => Kind::Hot,
            b"cold" => Kind::Cold,
            _ => return Err(FaultKind::Form),
        };
        let slot = n64(slot)? as usize;
        let (target, low, high) = (n32(target)?, n64(low)?, n64(high)?);
        if slot >= SLOTS || target == 0 || low > high {
            return Err(FaultKind::Limit);
        }
        Ok(Goal { slot, kind, target, low, high })
    }

    /// The bytes that the goal asks for at a score.
    fn answer(&self, bytes: u64, score: u64, given: u64) -> u64 {
        let (bytes, target) = (bytes as u128, self.target as u128);
        let score = score as u128;
        let wanted = if score < target {
            bytes + bytes * (target - score) / target
        } else {
            bytes - bytes * (score - target).min(target) / target
        };
        (wanted.min(self.high as u128) as u64).max(self.low).min(given)
    }
}

pub struct Tune {
    goals: Vec<Goal>,
    /// The bytes that the setup or a commit of the script gave each slot last.
    given: [u64; SLOTS],
    hot: u64,
    cold: u64,
}

impl Tune {
    pub fn new(goals: Vec<Goal>, schemes: &[(u8, Scheme)]) -> Tune {
        let mut tune = Tune { goals, given: [0; SLOTS], hot: 0, cold: 0 };
        schemes.iter().for_each(|(slot, scheme)| tune.give(*slot, scheme));
        tune
    }

    fn give(&mut self, slot: u8, scheme: &Scheme) {
        self.given[slot as usize] = scheme.quota.map_or(0, |it| it.bytes);
    }

    /// Goes through the slots, each with the goals that were scored.
    fn follow(&self, score: impl Fn(Kind) -> Option<u64>, monitor: &mut Monitor, report: &mut TextReport) -> Written {
        for number in 0..SLOTS {
            let (scheme, bytes) = match tuned(&monitor.slots[number]) {
                Some(found) => found,
                None => continue,
            };
            let goals = self.goals.iter().filter(|goal| goal.slot == number);
            let answers = goals.filter_map(|goal| Some(goal.answer(bytes, score(goal.kind)?, self.given[number])));
            let least = answers.min().unwrap_or(bytes);
            if least == bytes {
                continue;
            }
            let mut scheme = Box::new(scheme.clone());
            scheme.quota.iter_mut().for_each(|quota| quota.bytes = least);
            let commit = Commit { change: Some(Change::Set(number as u8, scheme)), ..Commit::default() };
            let answer = monitor.commit(&commit);
            report.answered(monitor.ticks, &answer)?;
        }
        Ok(())
    }
}

/// The scheme of a slot that can be tuned, and its bytes.
fn tuned(slot: &Slot) -> Option<(&Scheme, u64)> {
    let scheme = &slot.held.as_ref()?.scheme;
    let quota = scheme.quota?;
    scheme.marks.is_none().then(|| (scheme, quota.bytes))
}

impl Mode<TextReport> for Tune {
    fn aggregated(&mut self, monitor: &Monitor) {
        let rows = &monitor.rows;
        let hot: u64 =
            rows.count.iter().zip(&rows.pages).map(|(&it, &pages)| if it > 0 { pages as u64 } else { 0 }).sum();
        let total = monitor.total as u64;
        self.hot = 1000 * hot / total;
        self.cold = 1000 * (total - hot) / total;
    }

    fn after_aggregation(&mut self, monitor: &mut Monitor, report: &mut TextReport) -> Written {
        let score = |kind| match kind {
            Kind::Metric => None,
            Kind::Hot => Some(self.hot),
            Kind::Cold => Some(self.cold),
        };
        self.follow(score, monitor, report)
    }

    fn after_commit(&mut self, commit: &Commit, monitor: &mut Monitor, report: &mut TextReport) -> Written {
        if let Some(Change::Set(slot, scheme)) = &commit.change {
            self.give(*slot, scheme);
        }
        match commit.metric {
            Some(metric) => self.follow(|kind| (kind == Kind::Metric).then(|| metric as u64), monitor, report),
            None => Ok(()),
        }
    }

    fn ended(&mut self, monitor: &Monitor, report: &mut TextReport) -> Written {
        for number in 0..SLOTS {
            if self.goals.iter().any(|goal| goal.slot == number) {
                let output = report.output.field("tuned ", number as u64).str(" bytes=");
                match tuned(&monitor.slots[number]) {
                    Some((_, bytes)) => output.decimal(bytes),
                    None => output.str("none"),
                };
                report.output.str("\n");
            }
        }
        Ok(())
    }
}

#[cfg(test)]
mod tests {
    use super::*;

    #[test]
    fn answers_are_those_of_the_page() {
        let goal = Goal::of(b"0:metric:100:4096:81920").unwrap();
        assert_eq!(goal.answer(40_960, 50, u64::MAX), 61_440);
        assert_eq!(goal.answer(40_960, 50, 40_960), 40_960);
        assert_eq!(goal.answer(40_960, 200, 40_960), 4096);
        assert_eq!(Goal::of(b"0:hot:1:0:18446744073709551615").unwrap().answer(u64::MAX, 0, u64::MAX), u64::MAX);
    }

    #[test]
    fn goals_keep_their_limits() {
        for word in [
            "16:hot:1:0:0",
            "0:hot:0:0:0",
            "0:hot:1:2:1",
            "0:warm:1:0:0",
            "0:hot:1:0",
            "0:hot:1:0:0:0",
            "0:hot:4294967296:0:0",
            "00:hot:1:0:0",
        ] {
            assert!(Goal::of(word.as_bytes()).is_err(), "{word}");
        }
    }
}
