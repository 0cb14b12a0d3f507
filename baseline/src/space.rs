//! Targets, ranges and attributes, with their limits.

pub const PAGE: u64 = 4096;
pub const MOST_PAGES: u32 = 1_048_576;
pub const MOST_TARGETS: usize = 64;
pub const MOST_CLASS: u8 = 15;

pub struct Target {
    pub base: u64,
    pub pages: u32,
    /// The number of its first page.
    pub first: u32,
}

impl Target {
    /// The address of a page of this target.
    pub fn address(&self, page: u32) -> u64 {
        self.base + (page - self.first) as u64 * PAGE
    }

    fn end(&self) -> u64 {
        self.base + self.pages as u64 * PAGE
    }

    /// The page that holds the byte at an address, if it lies in this target.
    pub fn page_of(&self, address: u64) -> Option<u32> {
        let page = address.checked_sub(self.base)? / PAGE;
        (page < self.pages as u64).then(|| self.first + page as u32)
    }
}

#[derive(Default)]
pub struct Space {
    pub targets: Vec<Target>,
    pub pages: u32,
}

impl Space {
    /// Adds a target, or says that it is outside the limits.
    pub fn add(&mut self, base: u64, pages: u32) -> bool {
        let fits = self.targets.len() < MOST_TARGETS && pages >= 1 && pages <= MOST_PAGES - self.pages;
        if !fits || base % PAGE != 0 || base > (1 << 63) - pages as u64 * PAGE {
            return false;
        }
        self.targets.push(Target { base, pages, first: self.pages });
        self.pages += pages;
        true
    }

    pub fn page_of(&self, target: u32, address: u64) -> Option<u32> {
        self.targets.get(target as usize)?.page_of(address)
    }

    /// The pages of a target from one address to before another, both aligned and the first below the second.
    pub fn span_of(&self, target: u32, from: u64, to: u64) -> Option<(u32, u32)> {
        let target = self.targets.get(target as usize)?;
        Some((target.page_of(from)?, target.page_of(to - PAGE)? + 1))
    }

    pub fn target_of(&self, page: u32) -> usize {
        self.targets.partition_point(|it| it.first <= page) - 1
    }
}

#[derive(Clone, Copy, Debug, Default, PartialEq, Eq)]
pub struct Attrs {
    pub min: u32,
    pub max: u32,
    pub aggr: u32,
}

impl Attrs {
    /// The first reason against these attributes.
    pub fn fault(&self) -> Option<&'static str> {
        if self.min < 3 {
            Some("min-too-small")
        } else if self.min > self.max {
            Some("min-over-max")
        } else if !(1..=1000).contains(&self.aggr) {
            Some("aggr-out-of-range")
        } else {
            None
        }
    }
}

/// A range as a line spells it.
#[derive(Clone, Copy, Debug, PartialEq, Eq)]
pub struct RangeLine {
    pub target: u32,
    pub from: u64,
    pub to: u64,
    pub class: u8,
}

/// A range that keeps the rules.
#[derive(Clone, Copy, Debug, PartialEq, Eq)]
pub struct Range {
    pub target: u8,
    pub class: u8,
    pub first: u32,
    pub end: u32,
}

impl Range {
    pub fn pages(&self) -> u32 {
        self.end - self.first
    }
}

pub fn pages_of(ranges: &[Range]) -> u32 {
    ranges.iter().map(Range::pages).sum()
}

impl RangeLine {
    /// The range of this line behind those before it, or the first reason against it.
    pub fn checked(&self, before: &[Range], space: &Space, unit: u32, cap: u32) -> Result<Range, &'static str> {
        if before.len() >= cap as usize {
            return Err("too-many");
        }
        let target = space.targets.get(self.target as usize).ok_or("no-such-target")?;
        if self.from % PAGE != 0 || self.to % PAGE != 0 {
            return Err("unaligned");
        }
        if self.from >= self.to {
            return Err("reversed");
        }
        if self.from < target.base || self.to > target.end() {
            return Err("outside-span");
        }
        let page = |address: u64| target.first + ((address - target.base) / PAGE) as u32;
        let (first, end) = (page(self.from), page(self.to));
        if end - first < unit {
            return Err("too-small");
        }
        if self.class > MOST_CLASS {
            return Err("bad-class");
        }
        // Pages rise with the targets, so a smaller target has smaller pages.
        if before.last().map_or(false, |last| first < last.end) {
            return Err("overlap");
        }
        Ok(Range { target: self.target as u8, class: self.class, first, end })
    }
}
