//! Commits as texts have them: what they change, the reader of their lines, and their answers.

use crate::fault::{FaultKind, OfLine};
use crate::scheme::Scheme;
use crate::scheme_line;
use crate::setup::{attrs_of, range_of};
use crate::space::{Attrs, RangeLine};
use crate::words::{exactly, first_word, n32, n64, n8};

#[derive(Clone, Debug, PartialEq, Eq)]
pub enum Change {
    Set(u8, Box<Scheme>),
    Drop(u8),
}

#[derive(Clone, Debug, Default, PartialEq, Eq)]
pub struct Commit {
    pub attrs: Option<Attrs>,
    pub ranges: Vec<RangeLine>,
    pub change: Option<Change>,
    pub metric: Option<u32>,
    pub cost: Option<(u8, u64)>,
}

/// The lines between `commit` and `apply`, which come in the order of these places.
#[derive(Clone, Copy, PartialEq, Eq, PartialOrd, Ord)]
enum Place {
    Start,
    Ranges,
    Change,
    Metric,
    Cost,
}

pub struct CommitReader {
    pub commit: Commit,
    version: u8,
    /// The place of the line before.
    place: Place,
    has_attrs: bool,
}

impl CommitReader {
    pub fn new(version: u8) -> CommitReader {
        CommitReader { commit: Commit::default(), version, place: Place::Start, has_attrs: false }
    }

    /// Takes the next line; true for `apply`, which ends the commit.
    pub fn line(&mut self, line: &[u8]) -> OfLine<bool> {
        match first_word(line) {
            b"attrs" if self.place == Place::Start && !self.has_attrs => {
                self.commit.attrs = Some(attrs_of(line)?);
                self.has_attrs = true;
            }
            b"range" if self.place <= Place::Ranges => {
                self.commit.ranges.push(range_of(line)?);
                self.place = Place::Ranges;
            }
            b"scheme" if self.place < Place::Change => {
                let (slot, scheme) = scheme_line::read(line, self.version)?;
                self.commit.change = Some(Change::Set(slot, Box::new(scheme)));
                self.place = Place::Change;
            }
            b"drop" if self.place < Place::Change => {
                let [_, slot] = exactly(line)?;
                self.commit.change = Some(Change::Drop(n8(slot)?));
                self.place = Place::Change;
            }
            b"metric" if self.place < Place::Metric => {
                let [_, metric] = exactly(line)?;
                self.commit.metric = Some(n32(metric)?);
                self.place = Place::Metric;
            }
            b"cost" if self.place < Place::Cost && self.version == 2 => {
                let [_, slot, nanoseconds] = exactly(line)?;
                self.commit.cost = Some((n8(slot)?, n64(nanoseconds)?));
                self.place = Place::Cost;
            }
            b"apply" => {
                let [_] = exactly(line)?;
                return Ok(true);
            }
            _ => return Err(FaultKind::Word),
        }
        Ok(false)
    }
}

/// Why a commit is refused.
#[derive(Clone, Copy, Debug, PartialEq, Eq)]
pub enum Refusal {
    Busy { next: u32 },
    BadRange { index: u32, why: &'static str },
    RangesOverMax { ranges: u32, max: u32 },
    BadAttrs(&'static str),
    OverCap { max: u32, cap: u32 },
    BadScheme(&'static str),
    BadCost { slot: u8 },
}

#[derive(Clone, Copy, Debug, PartialEq, Eq)]
pub enum Answer {
    Ok { rows: u32, void: bool },
    Refused(Refusal),
}
