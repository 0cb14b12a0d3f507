//! Carrying out the commands of a script.

use crate::commands::{Command, Commands};
use crate::commit::{Answer, Commit};
use crate::monitor::Monitor;
use crate::output::Written;
use crate::report::Report;
use crate::setup::Setup;
use crate::world::{Goal, World};

/// What a run does beside the monitor: nothing, a model of resident pages, or goals for quotas.
pub trait Mode<R: Report> {
    fn touched(&mut self, _pages: &[u32]) {}

    fn swept(&mut self, _first: u32, _end: u32) {}

    /// The state is that between the two halves of an aggregation.
    fn aggregated(&mut self, _monitor: &Monitor) {}

    /// Puts in commits after an aggregation.
    fn after_aggregation(&mut self, _monitor: &mut Monitor, _report: &mut R) -> Written {
        Ok(())
    }

    /// Puts in commits after an accepted commit of the script.
    fn after_commit(&mut self, _commit: &Commit, _monitor: &mut Monitor, _report: &mut R) -> Written {
        Ok(())
    }

    fn ended(&mut self, _monitor: &Monitor, _report: &mut R) -> Written {
        Ok(())
    }
}

pub struct Plain;

impl<R: Report> Mode<R> for Plain {}

pub struct Run<R, M> {
    pub world: World,
    pub report: R,
    pub mode: M,
}

impl<R: Report, M: Mode<R>> Run<R, M> {
    pub fn new(setup: Setup, report: R, mode: M) -> Run<R, M> {
        Run { world: World::new(setup), report, mode }
    }

    pub fn all(&mut self, commands: &Commands) -> Written {
        let mut place = 0;
        while let Some((command, next)) = commands.at(place) {
            self.command(command)?;
            place = next;
        }
        self.end()
    }

    pub fn command(&mut self, command: Command) -> Written {
        match command {
            Command::Touches(pages) => self.touch(pages),
            Command::Sweep { first, end } => self.sweep(first, end),
            Command::Step(steps) => self.advance(Goal::Steps(steps))?,
            Command::Arm => self.advance(Goal::Armed)?,
            Command::Finish => self.advance(Goal::Idle)?,
            Command::Show => self.report.shown(&self.world.monitor)?,
            Command::Commit(commit) => self.commit(commit)?,
        }
        Ok(())
    }

    pub fn touch(&mut self, pages: &[u32]) {
        self.world.touch(pages);
        self.mode.touched(pages);
    }

    pub fn sweep(&mut self, first: u32, end: u32) {
        self.world.sweep(first, end);
        self.mode.swept(first, end);
    }

    pub fn advance(&mut self, goal: Goal) -> Written {
        let mut goal = goal;
        while let Some(left) = self.world.advance(goal) {
            self.aggregate()?;
            goal = match left {
                Goal::Steps(steps) => Goal::Steps(steps - 1),
                other => other,
            };
        }
        Ok(())
    }

    fn aggregate(&mut self) -> Written {
        let monitor = &mut self.world.monitor;
        monitor.aggregate();
        self.mode.aggregated(monitor);
        self.report.aggregated(monitor)?;
        monitor.split();
        self.mode.after_aggregation(monitor, &mut self.report)
    }

    fn commit(&mut self, commit: &Commit) -> Written {
        let monitor = &mut self.world.monitor;
        let answer = monitor.commit(commit);
        self.report.answered(monitor.ticks, &answer)?;
        match answer {
            Answer::Ok { .. } => self.mode.after_commit(commit, monitor, &mut self.report),
            Answer::Refused(_) => Ok(()),
        }
    }

    pub fn end(&mut self) -> Written {
        self.report.ended(&self.world.monitor)?;
        self.mode.ended(&self.world.monitor, &mut self.report)
    }
}
