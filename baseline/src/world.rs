//! A monitor with the marks of its pages, which takes single steps.

use crate::marks::Marks;
use crate::monitor::{Monitor, Phase};
use crate::setup::Setup;

pub struct World {
    pub monitor: Monitor,
    marks: Marks,
    /// What the loads of the pass under way found so far.
    loaded: Vec<u8>,
}

/// Where a run of steps is to end.
#[derive(Clone, Copy)]
pub enum Goal {
    Steps(u32),
    Armed,
    Idle,
}

impl World {
    pub fn new(setup: Setup) -> World {
        let marks = Marks::new(setup.space.pages);
        World { monitor: Monitor::new(setup), marks, loaded: Vec::new() }
    }

    pub fn touch(&mut self, pages: &[u32]) {
        self.marks.touch(pages);
    }

    pub fn sweep(&mut self, first: u32, end: u32) {
        self.marks.sweep(first, end);
    }

    /// Makes steps up to the goal or up to an aggregation, which is left to the caller. Gives what is left of the
    /// goal, or nothing where it is reached.
    pub fn advance(&mut self, goal: Goal) -> Option<Goal> {
        let mut left = match goal {
            Goal::Steps(steps) => steps,
            _ => u32::MAX,
        };
        loop {
            let rows = self.monitor.rows.len() as u32;
            match (self.monitor.phase, goal) {
                (Phase::Armed, Goal::Armed) | (Phase::Idle, Goal::Idle) => return None,
                _ if left == 0 => return None,
                (Phase::Due, Goal::Steps(_)) => return Some(Goal::Steps(left)),
                (Phase::Due, _) => return Some(goal),
                (Phase::Idle, _) => {
                    self.monitor.prepare();
                    self.monitor.phase = Phase::Clearing(0);
                    left -= 1;
                }
                (Phase::Clearing(done), _) => left -= self.clear(done, left.min(rows - done)),
                (Phase::Armed, _) => left -= self.load(0, left.min(rows)),
                (Phase::Checking(done), _) if done < rows => left -= self.load(done, left.min(rows - done)),
                (Phase::Checking(_), _) => {
                    self.monitor.observe(&self.loaded);
                    left -= 1;
                }
                (Phase::Void, _) => {
                    self.monitor.observe_void();
                    left -= 1;
                }
            }
        }
    }

    fn clear(&mut self, done: u32, steps: u32) -> u32 {
        let next = done + steps;
        self.marks.clear(&self.monitor.picks()[done as usize..next as usize]);
        let is_last = next as usize == self.monitor.rows.len();
        self.monitor.phase = if is_last { Phase::Armed } else { Phase::Clearing(next) };
        steps
    }

    fn load(&mut self, done: u32, steps: u32) -> u32 {
        let places = done as usize..(done + steps) as usize;
        self.loaded.resize(self.monitor.rows.len(), 0);
        self.marks.load(&self.monitor.picks()[places.clone()], &mut self.loaded[places]);
        self.monitor.phase = Phase::Checking(done + steps);
        steps
    }
}
