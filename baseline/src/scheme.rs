//! Schemes as their lines say them, with their limits.

use crate::space::{MOST_CLASS, PAGE};

pub const SLOTS: usize = 16;
pub const MOST_FILTERS: usize = 8;
pub const ACTIONS: [&str; 8] =
    ["stat", "willneed", "cold", "pageout", "hugepage", "nohugepage", "lru_prio", "lru_deprio"];

/// An action, by its place in `ACTIONS`.
#[derive(Clone, Copy, Debug, PartialEq, Eq)]
pub struct Action(pub u8);

impl Action {
    pub const STAT: Action = Action(0);
    pub const WILLNEED: Action = Action(1);
    pub const PAGEOUT: Action = Action(3);

    pub fn named(name: &[u8]) -> Option<Action> {
        ACTIONS.iter().position(|it| it.as_bytes() == name).map(|at| Action(at as u8))
    }

    pub fn name(self) -> &'static str {
        ACTIONS[self.0 as usize]
    }
}

/// A span of numbers, ends included.
#[derive(Clone, Copy, Debug, PartialEq, Eq)]
pub struct Span {
    pub least: u32,
    pub most: u32,
}

impl Span {
    pub const ALL: Span = Span { least: 0, most: u32::MAX };
}

#[derive(Clone, Copy, Debug, PartialEq, Eq)]
pub struct Quota {
    pub bytes: u64,
    pub reset: u32,
    /// Nanoseconds in each window, in version 2.
    pub time: Option<u64>,
}

#[derive(Clone, Copy, Debug, PartialEq, Eq)]
pub struct Marks {
    pub high: u32,
    pub mid: u32,
    pub low: u32,
}

#[derive(Clone, Copy, Debug, PartialEq, Eq)]
pub enum Kind {
    Addr { from: u64, to: u64 },
    Target(u32),
    Class(u8),
}

#[derive(Clone, Copy, Debug, PartialEq, Eq)]
pub struct Filter {
    pub allow: bool,
    pub not: bool,
    pub kind: Kind,
}

#[derive(Clone, Debug, PartialEq, Eq)]
pub struct Scheme {
    pub action: Action,
    pub size: Span,
    pub count: Span,
    pub age: Span,
    pub quota: Option<Quota>,
    pub weights: [u16; 3],
    pub cold: bool,
    pub marks: Option<Marks>,
    pub filters: Vec<Filter>,
}

impl Scheme {
    pub fn of(action: Action) -> Scheme {
        let (size, count, age) = (Span::ALL, Span::ALL, Span::ALL);
        Scheme { action, size, count, age, quota: None, weights: [1; 3], cold: false, marks: None, filters: Vec::new() }
    }

    /// The first reason against setting a slot to this scheme.
    pub fn fault(&self, slot: u8, version: u8) -> Option<&'static str> {
        if slot as usize >= SLOTS {
            Some("slot-out-of-range")
        } else if [self.size, self.count, self.age].iter().any(|it| it.least > it.most) {
            Some("pattern-reversed")
        } else if self.quota.map_or(false, |it| it.reset == 0) {
            Some("zero-reset")
        } else if self.marks.map_or(false, |it| it.high < it.mid || it.mid < it.low) {
            Some("marks-out-of-order")
        } else if self.filters.iter().any(Filter::breaks_limit) {
            Some("bad-filter")
        } else if version == 1 && self.quota.map_or(false, |it| it.time.is_some()) {
            Some("time-in-one")
        } else {
            None
        }
    }
}

impl Filter {
    fn breaks_limit(&self) -> bool {
        match self.kind {
            Kind::Addr { from, to } => from % PAGE != 0 || to % PAGE != 0 || from >= to,
            Kind::Target(_) => false,
            Kind::Class(class) => class > MOST_CLASS,
        }
    }
}
