//! What brings the number of rows down: merging at an aggregation, and shrinking to a maximum.

use crate::rows::{Row, Rows};
use std::cmp::Reverse;
use std::collections::BinaryHeap;

/// Joins adjacent rows of one range whose counts differ by at most `threshold`, up to `limit` pages.
pub fn merge(rows: &mut Rows, threshold: u32, limit: u32) {
    let rule = Rule { threshold, limit };
    let length = rows.len();
    let mut from = 0;
    let mut to = 0;
    while from < length {
        let same = rule.stretch(rows, from);
        rows.shift(from, from + same, to);
        from += same;
        to += same;
        if from == length {
            break;
        }
        let mut merged = rows.get(from).joined(&rows.get(from + 1));
        from += 2;
        while from < length && rule.joins(&merged, &rows.get(from)) {
            merged = merged.joined(&rows.get(from));
            from += 1;
        }
        rows.set(to, merged);
        to += 1;
    }
    rows.truncate(to);
}

struct Rule {
    threshold: u32,
    limit: u32,
}

impl Rule {
    #[inline]
    fn joins(&self, merged: &Row, row: &Row) -> bool {
        let is_close = merged.count.abs_diff(row.count) <= self.threshold;
        is_close & (merged.pages + row.pages <= self.limit) & (merged.range == row.range)
    }

    /// The number of rows from this one on that are not joined to the next one.
    fn stretch(&self, rows: &Rows, from: usize) -> usize {
        let counts = rows.count[from..].windows(2);
        let pairs = counts.zip(rows.pages[from..].windows(2)).zip(rows.range[from..].windows(2));
        let mut joins = pairs.map(|((counts, pages), ranges)| {
            let is_close = counts[0].abs_diff(counts[1]) <= self.threshold;
            is_close & (pages[0] + pages[1] <= self.limit) & (ranges[0] == ranges[1])
        });
        joins.position(|it| it).unwrap_or(rows.len() - from)
    }
}

/// Joins the closest pairs of adjacent rows of one range until there are at most `most` rows.
pub fn shrink(rows: &mut Rows, most: usize) {
    if rows.len() > most {
        join_equal(rows, most);
    }
    if rows.len() > most {
        join_closest(rows, most);
    }
}

/// Joins pairs with equal counts, the first ones first. A joined row has the count of both, so no other pair changes.
fn join_equal(rows: &mut Rows, most: usize) {
    let length = rows.len();
    let mut excess = length - most;
    let mut at = 0;
    let mut joined = rows.get(0);
    let mut next = 1;
    while next < length && excess > 0 {
        let row = rows.get(next);
        if joined.count == row.count && joined.range == row.range {
            joined = joined.joined(&row);
            excess -= 1;
        } else {
            rows.set(at, joined);
            at += 1;
            joined = row;
        }
        next += 1;
    }
    rows.set(at, joined);
    rows.shift(next, length, at + 1);
    rows.truncate(at + 1 + length - next);
}

/// No two adjacent rows of a range have equal counts at the start. A joined row has a count between those of its
/// parts, so the pairs beside it change, and a heap holds the pairs by their differences and places.
fn join_closest(rows: &mut Rows, most: usize) {
    let mut chain = Chain::new(rows);
    let mut heap: BinaryHeap<Reverse<(u32, usize)>> =
        (0..rows.len()).filter_map(|at| Some(Reverse((chain.difference(at)?, at)))).collect();
    let mut left = rows.len();
    while left > most {
        let (difference, at) = match heap.pop() {
            Some(Reverse(pair)) => pair,
            None => break,
        };
        if chain.difference(at) != Some(difference) {
            continue;
        }
        let before = chain.join(at);
        left -= 1;
        for at in before.into_iter().chain([at]) {
            heap.extend(chain.difference(at).map(|difference| Reverse((difference, at))));
        }
    }
    rows.clear();
    chain.rows.into_iter().flatten().for_each(|row| rows.push(row));
}

/// Rows with links to their neighbours. A row that was joined to the one before it is unlinked.
struct Chain {
    rows: Vec<Option<Row>>,
    before: Vec<usize>,
    behind: Vec<usize>,
}

impl Chain {
    fn new(rows: &Rows) -> Chain {
        let places = 0..rows.len();
        Chain {
            rows: places.clone().map(|at| Some(rows.get(at))).collect(),
            before: places.clone().map(|at| at.wrapping_sub(1)).collect(),
            behind: places.map(|at| at + 1).collect(),
        }
    }

    fn next(&self, at: usize) -> Option<Row> {
        *self.rows.get(self.behind[at])?
    }

    /// The difference of a row and the next one, if both are of one range.
    fn difference(&self, at: usize) -> Option<u32> {
        let (row, next) = (self.rows[at]?, self.next(at)?);
        (row.range == next.range).then(|| row.count.abs_diff(next.count))
    }

    /// Joins the next row to this one, and gives the place of the row before it.
    fn join(&mut self, at: usize) -> Option<usize> {
        let gone = self.behind[at];
        if let (Some(row), Some(next)) = (self.rows[at], self.next(at)) {
            self.rows[at] = Some(row.joined(&next));
        }
        self.rows[gone] = None;
        self.behind[at] = self.behind[gone];
        if let Some(before) = self.before.get_mut(self.behind[gone]) {
            *before = at;
        }
        let before = self.before[at];
        (before < self.rows.len()).then(|| before)
    }
}

#[cfg(test)]
mod tests {
    use super::*;
    use crate::random::Random;
    use crate::rows::tests::{parts_of, rows_of};

    fn merged(parts: &[(u32, u32)], threshold: u32, limit: u32) -> Vec<(u32, u32)> {
        let mut rows = rows_of(parts);
        merge(&mut rows, threshold, limit);
        parts_of(&rows)
    }

    #[test]
    fn merges_are_those_of_the_page() {
        assert_eq!(merged(&[(1, 4), (3, 0)], 4, 4), [(4, 1)]);
        assert_eq!(merged(&[(1, 4), (3, 0)], 3, 4), [(1, 4), (3, 0)]);
        assert_eq!(merged(&[(5, 6), (6, 6)], 0, 10), [(5, 6), (6, 6)]);
        assert_eq!(merged(&[(1, 0), (1, 2), (1, 4)], 2, 3), [(2, 1), (1, 4)]);
    }

    fn shrunk(parts: &[(u32, u32)], most: usize) -> Vec<(u32, u32)> {
        let mut rows = rows_of(parts);
        shrink(&mut rows, most);
        parts_of(&rows)
    }

    #[test]
    fn shrinking_is_that_of_the_page() {
        assert_eq!(shrunk(&[(1, 0), (1, 5), (1, 6), (1, 20)], 3), [(1, 0), (2, 5), (1, 20)]);
        assert_eq!(shrunk(&[(1, 4), (3, 0)], 1), [(4, 1)]);
    }

    /// The rule, word for word: one pair at a time, the first of the closest.
    fn by_the_rule(rows: &mut Rows, most: usize) {
        while rows.len() > most {
            let pairs = (0..rows.len() - 1).filter(|&at| rows.range[at] == rows.range[at + 1]);
            let closest = match pairs.min_by_key(|&at| rows.count[at].abs_diff(rows.count[at + 1])) {
                Some(at) => at,
                None => return,
            };
            let joined = rows.get(closest).joined(&rows.get(closest + 1));
            rows.set(closest, joined);
            let length = rows.len();
            rows.shift(closest + 2, length, closest + 1);
            rows.truncate(length - 1);
        }
    }

    #[test]
    fn shrinking_joins_what_the_rule_joins() {
        let mut random = Random::new(3);
        for _ in 0..300 {
            let length = 2 + random.next() as usize % 40;
            let most_count = 1 + random.next() % 12;
            let parts: Vec<_> = (0..length).map(|_| (1 + random.next() % 9, random.next() % most_count)).collect();
            let (mut quick, mut slow) = (rows_of(&parts), rows_of(&parts));
            for at in length / 2..length {
                quick.range[at] = 1;
                slow.range[at] = 1;
            }
            let most = 2 + random.next() as usize % length;
            shrink(&mut quick, most);
            by_the_rule(&mut slow, most);
            assert_eq!(parts_of(&quick), parts_of(&slow));
        }
    }
}
