//! What makes more or other rows: the splits of an aggregation, and new ranges.

use crate::random::Random;
use crate::rows::{Row, Rows};
use crate::space::Range;

pub struct Split {
    pub unit: u32,
    pub max: usize,
    /// The number of rows at the start of the split before.
    pub before: usize,
}

/// A cut of a row: the first part gets `pages` pages.
#[derive(Clone, Copy)]
struct Cut {
    row: u32,
    pages: u32,
}

impl Split {
    /// Cuts rows at random places. Row i has the words 2i and 2i + 1 of `random`.
    pub fn split(&self, rows: &mut Rows, mut random: Random) {
        let length = rows.len();
        let wants_three = length == self.before && length < self.max / 3;
        let mut cuts: Vec<Cut> = Vec::with_capacity(self.max.saturating_sub(length));
        for row in 0..length {
            let room = self.max.saturating_sub(length + cuts.len());
            if room == 0 {
                break;
            }
            let (one, other) = (random.next(), random.next());
            let pages = rows.pages[row];
            if let Some(left) = self.place(one, pages) {
                cuts.push(Cut { row: row as u32, pages: left });
                let second = if wants_three && room > 1 { self.place(other, pages - left) } else { None };
                cuts.extend(second.map(|more| Cut { row: row as u32, pages: left + more }));
            }
        }
        if !cuts.is_empty() {
            carry_out(rows, &cuts);
        }
    }

    /// Where a word cuts a row of `pages` pages, if both parts are large enough.
    fn place(&self, word: u32, pages: u32) -> Option<u32> {
        let left = ((1 + word as u64 % 9) * pages as u64 / 10) as u32;
        (left >= self.unit && pages - left >= self.unit).then(|| left)
    }
}

/// Makes the cuts from the last to the first, so that each row is moved once.
fn carry_out(rows: &mut Rows, cuts: &[Cut]) {
    let mut from = rows.len();
    let mut to = from + cuts.len();
    rows.lengthen(to);
    let mut end = u32::MAX;
    for (number, cut) in cuts.iter().enumerate().rev() {
        let at = cut.row as usize;
        let is_rightmost = cuts.get(number + 1).map_or(true, |next| next.row != cut.row);
        if is_rightmost {
            let behind = from - at - 1;
            rows.shift(at + 1, from, to - behind);
            to -= behind;
            from = at + 1;
            end = rows.pages[at];
        }
        let row = rows.get(at);
        to -= 1;
        rows.set(to, Row { start: row.start + cut.pages, pages: end - cut.pages, ..row });
        end = cut.pages;
        let is_leftmost = number == 0 || cuts[number - 1].row != cut.row;
        if is_leftmost {
            to -= 1;
            from = at;
            rows.set(to, Row { pages: cut.pages, ..row });
        }
    }
}

/// The rows of new ranges, which keep what was counted in the old rows as far as they can.
pub fn update(old: &Rows, ranges: &[Range], unit: u32, rows: &mut Rows) {
    rows.clear();
    let mut at = 0;
    for (number, range) in ranges.iter().enumerate() {
        while at < old.len() && old.start[at] + old.pages[at] <= range.first {
            at += 1;
        }
        Update { old, range, unit, number: number as u16 }.pieces(at, rows);
    }
}

struct Update<'a> {
    old: &'a Rows,
    range: &'a Range,
    unit: u32,
    number: u16,
}

impl Update<'_> {
    /// The pieces of one range. `at` is the first old row that ends behind its first page.
    fn pieces(&self, mut at: usize, rows: &mut Rows) {
        let (old, range) = (self.old, self.range);
        let covers = at < old.len() && old.start[at] <= range.first;
        let mut piece = if covers { self.piece(range.first, at) } else { self.bare(range.first) };
        while at < old.len() && old.start[at] < range.end {
            if self.keeps(old.start[at], piece.start) {
                self.push(piece, old.start[at], rows);
                let same = self.stretch(at);
                self.copy(at, same, rows);
                at = same;
                piece = self.piece(old.start[at], at);
            }
            let end = old.start[at] + old.pages[at];
            at += 1;
            let is_covered = at < old.len() && old.start[at] == end;
            if !is_covered && self.keeps(end, piece.start) {
                self.push(piece, end, rows);
                piece = self.bare(end);
            }
        }
        self.push(piece, range.end, rows);
    }

    /// The end of the rows from `at` on that stay as they are and have another row right behind them, with its start
    /// as a boundary that is kept. They begin with a boundary that is kept, and have at least `unit` pages each.
    fn stretch(&self, at: usize) -> usize {
        let last = self.range.end - self.unit;
        let pairs = self.old.start[at..].windows(2).zip(&self.old.pages[at..]);
        at + pairs.take_while(|(starts, &pages)| starts[0] + pages == starts[1] && starts[1] <= last).count()
    }

    fn copy(&self, at: usize, end: usize, rows: &mut Rows) {
        let old = self.old;
        rows.start.extend_from_slice(&old.start[at..end]);
        rows.pages.extend_from_slice(&old.pages[at..end]);
        rows.count.extend_from_slice(&old.count[at..end]);
        rows.last.extend_from_slice(&old.last[at..end]);
        rows.age.extend_from_slice(&old.age[at..end]);
        rows.range.resize(rows.range.len() + end - at, self.number);
    }

    /// Whether a boundary is kept, with the one kept last or the start of the range before it.
    fn keeps(&self, boundary: u32, before: u32) -> bool {
        boundary >= before + self.unit && boundary + self.unit <= self.range.end
    }

    fn piece(&self, start: u32, at: usize) -> Row {
        Row { start, range: self.number, ..self.old.get(at) }
    }

    fn bare(&self, start: u32) -> Row {
        Row { start, pages: 0, count: 0, last: 0, age: 0, range: self.number }
    }

    fn push(&self, piece: Row, end: u32, rows: &mut Rows) {
        rows.push(Row { pages: end - piece.start, ..piece });
    }
}

#[cfg(test)]
mod tests {
    use super::*;
    use crate::rows::tests::{parts_of, range, rows_of};

    /// Old rows by their first and last page, and count.
    fn updated(old: &[(u32, u32, u32)], unit: u32, new: (u32, u32)) -> Vec<(u32, u32, u32)> {
        let mut rows = Rows::default();
        for &(first, last, count) in old {
            rows.push(Row { start: first, pages: last - first + 1, count, last: 0, age: 0, range: 0 });
        }
        let mut made = Rows::default();
        update(&rows, &[range(new.0, new.1 + 1)], unit, &mut made);
        (0..made.len()).map(|at| made.get(at)).map(|it| (it.start, it.end() - 1, it.count)).collect()
    }

    #[test]
    fn updates_are_those_of_the_page() {
        assert_eq!(updated(&[(0, 9, 6), (10, 19, 1)], 3, (8, 29)), [(8, 19, 6), (20, 29, 0)]);
        let two = [(0, 2, 0), (5, 7, 1)];
        assert_eq!(updated(&two, 3, (2, 10)), [(2, 4, 0), (5, 7, 1), (8, 10, 0)]);
        assert_eq!(updated(&two, 3, (2, 9)), [(2, 4, 0), (5, 9, 1)]);
        assert_eq!(updated(&[(0, 1, 2), (4, 5, 1)], 1, (0, 5)), [(0, 1, 2), (2, 3, 0), (4, 5, 1)]);
    }

    /// A split with the same two words for each row would need another source, so cuts are carried out alone.
    #[test]
    fn cuts_leave_the_parts_in_order() {
        let cut = |row, pages| Cut { row, pages };
        for (cuts, wanted) in [
            (vec![cut(0, 3)], vec![(3, 1), (7, 1), (10, 2), (10, 3)]),
            (vec![cut(1, 3), cut(1, 6)], vec![(10, 1), (3, 2), (3, 2), (4, 2), (10, 3)]),
            (vec![cut(0, 3), cut(0, 6), cut(2, 1)], vec![(3, 1), (3, 1), (4, 1), (10, 2), (1, 3), (9, 3)]),
            (vec![cut(0, 3), cut(1, 4), cut(2, 1)], vec![(3, 1), (7, 1), (4, 2), (6, 2), (1, 3), (9, 3)]),
        ] {
            let mut rows = rows_of(&[(10, 1), (10, 2), (10, 3)]);
            carry_out(&mut rows, &cuts);
            assert_eq!(parts_of(&rows), wanted);
            assert!((1..rows.len()).all(|at| rows.get(at - 1).end() == rows.start[at]));
        }
    }

    #[test]
    fn words_cut_after_tenths() {
        let split = |unit| Split { unit, max: 4, before: 0 };
        assert_eq!(split(1).place(2, 10), Some(3));
        assert_eq!(split(4).place(2, 10), None);
        assert_eq!(split(1).place(4, 7), Some(3));
        assert_eq!(split(1).place(u32::MAX, 1), None);
    }
}
