//! The rows of a monitor, column by column, and the initial division of ranges into rows.

use crate::space::{pages_of, Range};

#[derive(Clone, Copy, Debug, PartialEq, Eq)]
pub struct Row {
    pub start: u32,
    pub pages: u32,
    pub count: u32,
    pub last: u32,
    pub age: u32,
    /// The place of its range in the list of ranges.
    pub range: u16,
}

impl Row {
    pub fn end(&self) -> u32 {
        self.start + self.pages
    }

    /// This row and the next one as one row, with averages weighted by pages.
    pub fn joined(&self, next: &Row) -> Row {
        let pages = self.pages + next.pages;
        let mean = |a: u32, b: u32| {
            if a == b {
                return a;
            }
            ((a as u64 * self.pages as u64 + b as u64 * next.pages as u64) / pages as u64) as u32
        };
        Row {
            start: self.start,
            pages,
            count: mean(self.count, next.count),
            last: mean(self.last, next.last),
            age: mean(self.age, next.age),
            range: self.range,
        }
    }
}

/// Up to this number of rows it is faster to move row by row than column by column.
const FEW: usize = 6;

#[derive(Default)]
pub struct Rows {
    pub start: Vec<u32>,
    pub pages: Vec<u32>,
    pub count: Vec<u32>,
    pub last: Vec<u32>,
    pub age: Vec<u32>,
    pub range: Vec<u16>,
}

impl Rows {
    /// The rows before the first pass, which may be more than `max`.
    pub fn divided(ranges: &[Range], min: u32, unit: u32) -> Rows {
        let total = pages_of(ranges) as u64;
        let mut rows = Rows::default();
        for (number, range) in ranges.iter().enumerate() {
            let share = (range.pages() as u64 * min as u64 / total).max(1) as u32;
            let parts = share.min(range.pages() / unit);
            let pages = range.pages() / parts;
            for part in 0..parts {
                let start = range.first + part * pages;
                let end = if part + 1 == parts { range.end } else { start + pages };
                rows.push(Row { start, pages: end - start, count: 0, last: 0, age: 0, range: number as u16 });
            }
        }
        rows
    }

    #[inline]
    pub fn len(&self) -> usize {
        self.start.len()
    }

    #[inline(always)]
    pub fn get(&self, at: usize) -> Row {
        Row {
            start: self.start[at],
            pages: self.pages[at],
            count: self.count[at],
            last: self.last[at],
            age: self.age[at],
            range: self.range[at],
        }
    }

    #[inline(always)]
    pub fn set(&mut self, at: usize, row: Row) {
        self.start[at] = row.start;
        self.pages[at] = row.pages;
        self.count[at] = row.count;
        self.last[at] = row.last;
        self.age[at] = row.age;
        self.range[at] = row.range;
    }

    #[inline]
    pub fn push(&mut self, row: Row) {
        self.start.push(row.start);
        self.pages.push(row.pages);
        self.count.push(row.count);
        self.last.push(row.last);
        self.age.push(row.age);
        self.range.push(row.range);
    }

    fn columns(&mut self) -> [&mut Vec<u32>; 5] {
        [&mut self.start, &mut self.pages, &mut self.count, &mut self.last, &mut self.age]
    }

    pub fn clear(&mut self) {
        self.truncate(0);
    }

    pub fn truncate(&mut self, length: usize) {
        self.columns().into_iter().for_each(|it| it.truncate(length));
        self.range.truncate(length);
    }

    /// Makes a list longer; the values at its new places are not defined.
    pub fn lengthen(&mut self, length: usize) {
        self.columns().into_iter().for_each(|it| it.resize(length, 0));
        self.range.resize(length, 0);
    }

    /// Moves the rows from `from` to before `end` so that they begin at `to`. A few rows are moved one after another.
    #[inline]
    pub fn shift(&mut self, from: usize, end: usize, to: usize) {
        let length = end - from;
        if from == to || length == 0 {
            return;
        }
        if length > FEW {
            self.shift_columns(from, end, to);
        } else if to < from {
            (0..length).for_each(|at| self.set(to + at, self.get(from + at)));
        } else {
            (0..length).rev().for_each(|at| self.set(to + at, self.get(from + at)));
        }
    }

    fn shift_columns(&mut self, from: usize, end: usize, to: usize) {
        self.columns().into_iter().for_each(|it| it.copy_within(from..end, to));
        self.range.copy_within(from..end, to);
    }

    /// Cuts a row after `pages` pages. Both parts keep its other values.
    pub fn cut(&mut self, at: usize, pages: u32) {
        let row = self.get(at);
        let length = self.len();
        self.lengthen(length + 1);
        self.shift(at + 1, length, at + 2);
        self.set(at, Row { pages, ..row });
        self.set(at + 1, Row { start: row.start + pages, pages: row.pages - pages, ..row });
    }

    pub fn copy_from(&mut self, other: &Rows) {
        let others = [&other.start, &other.pages, &other.count, &other.last, &other.age];
        for (column, other) in self.columns().into_iter().zip(others) {
            column.clone_from(other);
        }
        self.range.clone_from(&other.range);
    }

    /// Whether each row lies where the row of another list at the same place does.
    pub fn lie_as(&self, other: &Rows) -> bool {
        self.start == other.start && self.pages == other.pages
    }
}

#[cfg(test)]
pub mod tests {
    use super::*;

    pub fn range(first: u32, end: u32) -> Range {
        Range { target: 0, class: 0, first, end }
    }

    /// Rows of one range, by their pages and counts, one after another.
    pub fn rows_of(parts: &[(u32, u32)]) -> Rows {
        let mut rows = Rows::default();
        let mut start = 0;
        for &(pages, count) in parts {
            rows.push(Row { start, pages, count, last: 0, age: 0, range: 0 });
            start += pages;
        }
        rows
    }

    pub fn parts_of(rows: &Rows) -> Vec<(u32, u32)> {
        rows.pages.iter().copied().zip(rows.count.iter().copied()).collect()
    }

    #[test]
    fn divisions_are_those_of_the_page() {
        let pages = |ranges: &[Range], unit, min| Rows::divided(ranges, min, unit).pages;
        assert_eq!(pages(&[range(0, 5), range(5, 100)], 1, 10), [5, 10, 10, 10, 10, 10, 10, 10, 10, 15]);
        assert_eq!(pages(&[range(0, 5)], 2, 10), [2, 3]);
        assert_eq!(pages(&[range(0, 3)], 1, 3), [1, 1, 1]);
        assert_eq!(pages(&[range(0, 1)], 1, 3), [1]);
        assert_eq!(pages(&[range(0, 1024)], 2, 10), [102, 102, 102, 102, 102, 102, 102, 102, 102, 106]);
    }

    #[test]
    fn rows_are_moved_to_both_sides() {
        for length in 0..12 {
            for to in [0, 3, 5, 9] {
                let mut rows = rows_of(&(1..30).map(|pages| (pages, pages)).collect::<Vec<_>>());
                let mut wanted: Vec<u32> = rows.pages.clone();
                wanted.copy_within(5..5 + length, to);
                rows.shift(5, 5 + length, to);
                assert_eq!((&rows.pages, &rows.count), (&wanted, &wanted));
            }
        }
    }

    #[test]
    fn a_cut_keeps_all_but_the_pages() {
        let mut rows = rows_of(&[(4, 1), (10, 2), (3, 3)]);
        rows.age[1] = 7;
        rows.cut(1, 6);
        assert_eq!(parts_of(&rows), [(4, 1), (6, 2), (4, 2), (3, 3)]);
        assert_eq!((rows.start, rows.age), (vec![0, 4, 10, 14], vec![0, 7, 7, 0]));
    }
}
