//! The model of resident pages of `damon reclaim`.

use crate::commit::Commit;
use crate::marks::for_words;
use crate::monitor::Monitor;
use crate::output::Written;
use crate::report::Report;
use crate::run::Mode;
use crate::scheme::Action;
use crate::text_report::TextReport;

pub struct Reclaim {
    /// A bit for each page, set where it is out.
    is_out: Vec<u64>,
    pages: u64,
    out: u64,
    pageouts: u64,
    refaults: u64,
    prefetches: u64,
}

impl Reclaim {
    pub fn new(pages: u32) -> Reclaim {
        let is_out = vec![0; (pages as usize + 63) / 64];
        Reclaim { is_out, pages: pages as u64, out: 0, pageouts: 0, refaults: 0, prefetches: 0 }
    }

    fn put_out(&mut self, first: u32, end: u32) {
        let mut went = 0;
        for_words(first, end, |at, mask| {
            went += (mask & !self.is_out[at]).count_ones() as u64;
            self.is_out[at] |= mask;
        });
        self.out += went;
        self.pageouts += went;
    }

    /// Brings pages back, and gives the number of those that were out.
    fn bring_back(&mut self, first: u32, end: u32) -> u64 {
        if self.out == 0 {
            return 0;
        }
        let mut came = 0;
        for_words(first, end, |at, mask| {
            came += (mask & self.is_out[at]).count_ones() as u64;
            self.is_out[at] &= !mask;
        });
        self.out -= came;
        came
    }

    fn write(&self, tick: u64, report: &mut TextReport) {
        let output = &mut report.output;
        output.field("reclaim tick=", tick).field(" resident=", self.pages - self.out).field(" out=", self.out);
        output.field(" pageouts=", self.pageouts).field(" refaults=", self.refaults);
        output.field(" prefetches=", self.prefetches).str("\n");
    }
}

impl Mode<TextReport> for Reclaim {
    fn touched(&mut self, pages: &[u32]) {
        if self.out > 0 {
            for &page in pages {
                self.refaults += self.bring_back(page, page + 1);
            }
        }
    }

    fn swept(&mut self, first: u32, end: u32) {
        self.refaults += self.bring_back(first, end);
    }

    fn aggregated(&mut self, monitor: &Monitor) {
        let mut at = 0;
        for served in &monitor.engine.served {
            for run in &monitor.engine.runs[at..served.runs_end] {
                match served.action {
                    Action::PAGEOUT => self.put_out(run.first, run.end),
                    Action::WILLNEED => self.prefetches += self.bring_back(run.first, run.end),
                    _ => {}
                }
            }
            at = served.runs_end;
        }
    }

    fn after_aggregation(&mut self, monitor: &mut Monitor, report: &mut TextReport) -> Written {
        self.write(monitor.ticks, report);
        let metric = Some((1000 * self.out / self.pages) as u32);
        let answer = monitor.commit(&Commit { metric, ..Commit::default() });
        report.answered(monitor.ticks, &answer)
    }

    fn ended(&mut self, monitor: &Monitor, report: &mut TextReport) -> Written {
        self.write(monitor.ticks, report);
        Ok(())
    }
}
