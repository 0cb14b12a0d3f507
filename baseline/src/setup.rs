//! The setup of a monitor, and the reader of its lines, which scripts, live scripts and journals share.

use crate::fault::{FaultKind, OfLine};
use crate::scheme::Scheme;
use crate::scheme_line;
use crate::space::{Attrs, Range, RangeLine, Space, MOST_PAGES};
use crate::words::{address, exactly, n32, n64, n8};

#[derive(Default)]
pub struct Setup {
    pub version: u8,
    pub seed: u64,
    pub unit: u32,
    pub cap: u32,
    pub attrs: Attrs,
    pub space: Space,
    pub ranges: Vec<Range>,
    /// The slots that are set, in the order of their lines.
    pub schemes: Vec<(u8, Scheme)>,
}

/// What the next line of a setup may be.
#[derive(Clone, Copy, PartialEq, Eq)]
enum Place {
    Header,
    Seed,
    Unit,
    Cap,
    Attrs,
    FirstTarget,
    Targets,
    Ranges,
    Schemes,
}

pub struct SetupReader {
    pub setup: Setup,
    headers: [&'static [u8]; 2],
    place: Place,
}

/// What the reader of a setup made of a line.
#[derive(PartialEq, Eq)]
pub enum Was {
    /// A line of the setup.
    Setup,
    /// A line that may follow a whole setup, by its first word.
    Behind,
}

impl SetupReader {
    /// `headers` are those of versions 1 and 2.
    pub fn new(headers: [&'static [u8]; 2]) -> SetupReader {
        SetupReader { setup: Setup::default(), headers, place: Place::Header }
    }

    /// Takes the next line. `behind` are the words of lines that may follow the setup.
    pub fn line(&mut self, line: &[u8], behind: &[&[u8]]) -> OfLine<Was> {
        let word = crate::words::first_word(line);
        let place = match (self.place, word) {
            (Place::Header, _) => return self.header(line),
            (Place::Seed, b"seed") => self.seed(line)?,
            (Place::Unit, b"unit") => self.unit(line)?,
            (Place::Cap, b"cap") => self.cap(line)?,
            (Place::Attrs, b"attrs") => self.attrs(line)?,
            (Place::FirstTarget | Place::Targets, b"target") => self.target(line)?,
            (Place::Targets | Place::Ranges, b"range") => self.range(line)?,
            (Place::Ranges | Place::Schemes, b"scheme") => self.scheme(line)?,
            (Place::Ranges | Place::Schemes, _) if behind.contains(&word) => return Ok(Was::Behind),
            _ => return Err(FaultKind::Word),
        };
        self.place = place;
        Ok(Was::Setup)
    }

    fn header(&mut self, line: &[u8]) -> OfLine<Was> {
        let at = self.headers.iter().position(|&it| it == line).ok_or(FaultKind::Header)?;
        self.setup.version = at as u8 + 1;
        self.place = Place::Seed;
        Ok(Was::Setup)
    }

    fn seed(&mut self, line: &[u8]) -> OfLine<Place> {
        let [_, seed] = exactly(line)?;
        self.setup.seed = n64(seed)?;
        Ok(Place::Unit)
    }

    fn unit(&mut self, line: &[u8]) -> OfLine<Place> {
        let [_, unit] = exactly(line)?;
        self.setup.unit = within(n32(unit)?, 1, MOST_PAGES)?;
        Ok(Place::Cap)
    }

    fn cap(&mut self, line: &[u8]) -> OfLine<Place> {
        let [_, cap] = exactly(line)?;
        self.setup.cap = within(n32(cap)?, 3, 4096)?;
        Ok(Place::Attrs)
    }

    fn attrs(&mut self, line: &[u8]) -> OfLine<Place> {
        let attrs = attrs_of(line)?;
        if attrs.fault().is_some() {
            return Err(FaultKind::Attrs);
        }
        if attrs.max > self.setup.cap {
            return Err(FaultKind::OverCap);
        }
        self.setup.attrs = attrs;
        Ok(Place::FirstTarget)
    }

    fn target(&mut self, line: &[u8]) -> OfLine<Place> {
        let [_, base, pages] = exactly(line)?;
        let (base, pages) = (address(base)?, n32(pages)?);
        if self.setup.space.add(base, pages) {
            Ok(Place::Targets)
        } else {
            Err(FaultKind::Limit)
        }
    }

    fn range(&mut self, line: &[u8]) -> OfLine<Place> {
        let read = range_of(line)?;
        let setup = &mut self.setup;
        let range = read.checked(&setup.ranges, &setup.space, setup.unit, setup.cap).map_err(|_| FaultKind::Range)?;
        if setup.ranges.len() as u32 >= setup.attrs.max {
            return Err(FaultKind::RangesOverMax);
        }
        setup.ranges.push(range);
        Ok(Place::Ranges)
    }

    fn scheme(&mut self, line: &[u8]) -> OfLine<Place> {
        let (slot, scheme) = scheme_line::read(line, self.setup.version)?;
        if scheme.fault(slot, self.setup.version).is_some() {
            return Err(FaultKind::Scheme);
        }
        if self.setup.schemes.iter().any(|it| it.0 == slot) {
            return Err(FaultKind::Repeated);
        }
        self.setup.schemes.push((slot, scheme));
        Ok(Place::Schemes)
    }
}

pub fn within(number: u32, least: u32, most: u32) -> OfLine<u32> {
    if (least..=most).contains(&number) {
        Ok(number)
    } else {
        Err(FaultKind::Limit)
    }
}

pub fn attrs_of(line: &[u8]) -> OfLine<Attrs> {
    let [_, min, max, aggr] = exactly(line)?;
    Ok(Attrs { min: n32(min)?, max: n32(max)?, aggr: n32(aggr)? })
}

pub fn range_of(line: &[u8]) -> OfLine<RangeLine> {
    let [_, target, from, to, class] = exactly(line)?;
    Ok(RangeLine { target: n32(target)?, from: address(from)?, to: address(to)?, class: n8(class)? })
}
