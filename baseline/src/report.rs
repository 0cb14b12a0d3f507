//! What the runs of scripts write, in each of its forms.

use crate::commit::Answer;
use crate::monitor::Monitor;
use crate::output::Written;

pub trait Report {
    fn shown(&mut self, monitor: &Monitor) -> Written;
    /// The state is that between the two halves of an aggregation.
    fn aggregated(&mut self, monitor: &Monitor) -> Written;
    fn answered(&mut self, tick: u64, answer: &Answer) -> Written;
    fn ended(&mut self, monitor: &Monitor) -> Written;
}

/// A report that is thrown away.
pub struct NoReport;

impl Report for NoReport {
    fn shown(&mut self, _: &Monitor) -> Written {
        Ok(())
    }

    fn aggregated(&mut self, _: &Monitor) -> Written {
        Ok(())
    }

    fn answered(&mut self, _: u64, _: &Answer) -> Written {
        Ok(())
    }

    fn ended(&mut self, _: &Monitor) -> Written {
        Ok(())
    }
}
