//! Which pages pass the filters of a scheme, as runs of pages.

use crate::scheme::{Filter, Kind, Scheme};
use crate::space::{Range, Space};

/// A run of pages, from `first` to before `end`.
#[derive(Clone, Copy, Debug, PartialEq, Eq)]
pub struct Span {
    pub first: u32,
    pub end: u32,
}

/// The longest runs of passing pages within one range each, in order; nothing where all pages pass.
pub type Passing = Option<Vec<Span>>;

pub fn passing_of(scheme: &Scheme, ranges: &[Range], space: &Space) -> Passing {
    if scheme.filters.is_empty() {
        return None;
    }
    let mut runs: Vec<Span> = Vec::new();
    for range in ranges {
        let own = runs.len();
        let edges = edges_of(&scheme.filters, range, space);
        for pair in edges.windows(2) {
            let (first, end) = (pair[0], pair[1]);
            if !passes(&scheme.filters, range, space, first) {
                continue;
            }
            match runs[own..].last_mut() {
                Some(last) if last.end == first => last.end = end,
                _ => runs.push(Span { first, end }),
            }
        }
    }
    Some(runs)
}

/// The pages of a range between which filters by address may change their answer, with its first page and its end.
fn edges_of(filters: &[Filter], range: &Range, space: &Space) -> Vec<u32> {
    let target = &space.targets[range.target as usize];
    let mut edges = vec![range.first, range.end];
    for filter in filters {
        if let Kind::Addr { from, to } = filter.kind {
            let pages = [from, to].into_iter().filter_map(|address| target.page_of(address));
            edges.extend(pages.filter(|page| (range.first + 1..range.end).contains(page)));
        }
    }
    edges.sort_unstable();
    edges.dedup();
    edges
}

fn passes(filters: &[Filter], range: &Range, space: &Space, page: u32) -> bool {
    let address = space.targets[range.target as usize].address(page);
    for filter in filters {
        let is_of_kind = match filter.kind {
            Kind::Addr { from, to } => (from..to).contains(&address),
            Kind::Target(target) => target == range.target as u32,
            Kind::Class(class) => class == range.class,
        };
        if is_of_kind != filter.not {
            return filter.allow;
        }
    }
    filters.last().map_or(true, |last| !last.allow)
}

#[cfg(test)]
mod tests {
    use super::*;
    use crate::scheme_line;

    fn passing(filters: &str) -> Vec<u32> {
        let mut space = Space::default();
        space.add(0, 5);
        let range = |class, first, end| Range { target: 0, class, first, end };
        let ranges = [range(1, 0, 3), range(2, 3, 5)];
        let line = format!("scheme 0 stat {filters}");
        let (_, scheme) = scheme_line::read(line.as_bytes(), 1).unwrap();
        match passing_of(&scheme, &ranges, &space) {
            None => (0..5).collect(),
            Some(runs) => runs.iter().flat_map(|run| run.first..run.end).collect(),
        }
    }

    #[test]
    fn filters_are_those_of_the_page() {
        assert_eq!(passing("weights=1,1,1"), [0, 1, 2, 3, 4]);
        assert_eq!(passing("filter=allow:addr:0x1000-0x3000"), [1, 2]);
        assert_eq!(passing("filter=reject:addr:0x1000-0x3000"), [0, 3, 4]);
        assert_eq!(passing("filter=reject:addr:0x1000-0x2000 filter=allow:class:1"), [0, 2]);
        assert_eq!(passing("filter=allow:class:1 filter=reject:addr:0x1000-0x2000"), [0, 1, 2, 3, 4]);
        assert_eq!(passing("filter=allow:not-class:1"), [3, 4]);
        assert_eq!(passing("filter=reject:not-class:1 filter=allow:addr:0x1000-0x4000"), [1, 2]);
        assert_eq!(passing("filter=allow:target:7"), []);
        assert_eq!(passing("filter=allow:not-target:7"), [0, 1, 2, 3, 4]);
    }
}
