//! Lines of setups and commits in their one spelling, in which no key has its default.

use crate::commit::{Change, Commit};
use crate::output::Output;
use crate::scheme::{Kind, Scheme, Span};
use crate::setup::Setup;
use crate::space::{Attrs, Range, RangeLine, Space};

/// The lines of a setup from `seed` on.
pub fn setup(output: &mut Output, setup: &Setup) {
    output.field("seed ", setup.seed).field("\nunit ", setup.unit as u64).field("\ncap ", setup.cap as u64).str("\n");
    attrs(output, &setup.attrs);
    for target in &setup.space.targets {
        output.str("target ").address(target.base).field(" ", target.pages as u64).str("\n");
    }
    for it in &setup.ranges {
        range(output, &range_line(it, &setup.space));
    }
    for (slot, it) in &setup.schemes {
        scheme(output, *slot, it);
    }
}

pub fn commit(output: &mut Output, commit: &Commit) {
    commit.attrs.iter().for_each(|it| attrs(output, it));
    commit.ranges.iter().for_each(|it| range(output, it));
    match &commit.change {
        Some(Change::Set(slot, it)) => scheme(output, *slot, it),
        Some(Change::Drop(slot)) => {
            output.field("drop ", *slot as u64).str("\n");
        }
        None => {}
    }
    if let Some(metric) = commit.metric {
        output.field("metric ", metric as u64).str("\n");
    }
    if let Some((slot, nanoseconds)) = commit.cost {
        output.field("cost ", slot as u64).field(" ", nanoseconds).str("\n");
    }
    output.str("apply\n");
}

fn range_line(range: &Range, space: &Space) -> RangeLine {
    let target = &space.targets[range.target as usize];
    let (from, to) = (target.address(range.first), target.address(range.end));
    RangeLine { target: range.target as u32, from, to, class: range.class }
}

fn attrs(output: &mut Output, attrs: &Attrs) {
    output.field("attrs ", attrs.min as u64).field(" ", attrs.max as u64).field(" ", attrs.aggr as u64).str("\n");
}

fn range(output: &mut Output, range: &RangeLine) {
    output.field("range ", range.target as u64).str(" ").address(range.from).str(" ").address(range.to);
    output.field(" ", range.class as u64).str("\n");
}

pub fn scheme(output: &mut Output, slot: u8, scheme: &Scheme) {
    output.field("scheme ", slot as u64).str(" ").str(scheme.action.name());
    for (name, span) in [(" size=", scheme.size), (" count=", scheme.count), (" age=", scheme.age)] {
        if span != Span::ALL {
            output.field(name, span.least as u64).field(",", span.most as u64);
        }
    }
    if let Some(quota) = scheme.quota {
        output.field(" quota=", quota.bytes).field(",", quota.reset as u64);
        quota.time.iter().for_each(|&time| {
            output.field(" time=", time);
        });
    }
    if scheme.weights != [1; 3] {
        let [size, count, age] = scheme.weights.map(u64::from);
        output.field(" weights=", size).field(",", count).field(",", age);
    }
    output.str(if scheme.cold { " prefer=cold" } else { "" });
    if let Some(marks) = scheme.marks {
        output.field(" marks=", marks.high as u64).field(",", marks.mid as u64).field(",", marks.low as u64);
    }
    for filter in &scheme.filters {
        output.str(if filter.allow { " filter=allow:" } else { " filter=reject:" });
        output.str(if filter.not { "not-" } else { "" });
        match filter.kind {
            Kind::Addr { from, to } => output.str("addr:").address(from).str("-").address(to),
            Kind::Target(target) => output.field("target:", target as u64),
            Kind::Class(class) => output.field("class:", class as u64),
        };
    }
    output.str("\n");
}
