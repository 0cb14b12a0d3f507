//! Scores of rows for schemes.

use crate::rows::Rows;
use crate::scheme::Scheme;

/// A division by one number of numbers below 2^27, as a multiplication.
#[derive(Clone, Copy)]
struct Divisor {
    factor: u32,
    shift: u32,
}

impl Divisor {
    /// `divisor` is from 1 to 2^20.
    fn of(divisor: u32) -> Divisor {
        // With 2^k at least 2^27 times the divisor, the quotient is too large by less than one part of the divisor.
        let shift = 27 + 32 - (divisor - 1).leading_zeros();
        Divisor { factor: (((1u64 << shift) + divisor as u64 - 1) / divisor as u64) as u32, shift }
    }

    #[inline]
    fn quotient(self, number: u32) -> u32 {
        (number as u64 * self.factor as u64 >> self.shift) as u32
    }
}

/// The parts of the scores that are the same for all slots.
#[derive(Default)]
pub struct Scores {
    size: Vec<u8>,
    heat: Vec<u8>,
    /// Room for the scores of all rows.
    all: Vec<u8>,
    total: u32,
}

/// How a scheme weighs the parts.
pub struct Scoring {
    weights: [u32; 3],
    cold: bool,
    sum: Option<Divisor>,
}

impl Scoring {
    pub fn of(scheme: &Scheme) -> Scoring {
        let weights = scheme.weights.map(u32::from);
        let sum: u32 = weights.iter().sum();
        Scoring { weights, cold: scheme.cold, sum: (sum > 0).then(|| Divisor::of(sum)) }
    }
}

impl Scores {
    /// Finds the sizes and the counts of all rows as parts of scores.
    pub fn begin(&mut self, rows: &Rows, total: u32, aggr: u32) {
        self.total = total;
        let of_total = Divisor::of(total);
        self.size.clear();
        self.size.extend(rows.pages.iter().map(|&pages| of_total.quotient(99 * pages).min(99) as u8));
        let of_aggr = Divisor::of(aggr);
        self.heat.clear();
        // Where a count is above `aggr` the part is 99 in any case, and the product stays small.
        self.heat.extend(rows.count.iter().map(|&count| of_aggr.quotient(99 * count.min(aggr)) as u8));
    }

    /// Follows a row that was cut in two.
    pub fn cut(&mut self, rows: &Rows, at: usize) {
        let part = |pages: u32| (99 * pages / self.total).min(99) as u8;
        let (front, back) = (part(rows.pages[at]), part(rows.pages[at + 1]));
        self.size[at] = front;
        self.size.insert(at + 1, back);
        self.heat.insert(at + 1, self.heat[at]);
    }

    /// Adds the scores of some rows to a list.
    pub fn extend(&mut self, scoring: &Scoring, rows: &Rows, of: &[u32], scores: &mut Vec<u8>) {
        let sum = match scoring.sum {
            Some(sum) => sum,
            None => return scores.resize(scores.len() + of.len(), 0),
        };
        if of.is_empty() {
            return;
        }
        let [by_size, by_heat, by_age] = scoring.weights;
        let flip = if scoring.cold { 99 } else { 0 };
        let part = |size: u8, heat: u8, age: u32| {
            let heat = (heat as i32 - flip).unsigned_abs();
            sum.quotient(by_size * size as u32 + by_heat * heat + by_age * age.min(99)) as u8
        };
        if 4 * of.len() < rows.len() {
            scores
                .extend(of.iter().map(|&row| row as usize).map(|at| part(self.size[at], self.heat[at], rows.age[at])));
            return;
        }
        // Those of all rows by one loop over their columns take less time than those of most of them.
        self.all.resize(rows.len(), 0);
        let columns = self.size.iter().zip(&self.heat).zip(&rows.age);
        self.all.iter_mut().zip(columns).for_each(|(score, ((&size, &heat), &age))| *score = part(size, heat, age));
        if of.len() == rows.len() {
            scores.extend_from_slice(&self.all);
        } else {
            scores.extend(of.iter().map(|&row| self.all[row as usize]));
        }
    }
}

#[cfg(test)]
mod tests {
    use super::*;
    use crate::rows::tests::rows_of;
    use crate::scheme_line;

    fn score(pages: u32, count: u32, age: u32, keys: &str) -> u8 {
        let mut rows = rows_of(&[(pages, count)]);
        rows.age[0] = age;
        let (_, scheme) = scheme_line::read(format!("scheme 0 cold {keys}").as_bytes(), 1).unwrap();
        let mut scores = Scores::default();
        scores.begin(&rows, 400, 10);
        let mut found = Vec::new();
        scores.extend(&Scoring::of(&scheme), &rows, &[0], &mut found);
        found[0]
    }

    #[test]
    fn scores_are_those_of_the_page() {
        assert_eq!(score(30, 4, 150, "weights=1,1,1"), 48);
        assert_eq!(score(30, 4, 150, "weights=1,1,1 prefer=cold"), 55);
        assert_eq!(score(30, 4, 150, "weights=0,1,3"), 84);
        assert_eq!(score(30, 4, 150, "weights=0,1,3 prefer=cold"), 89);
        assert_eq!(score(30, 4, 150, "weights=1,0,0"), 7);
        assert_eq!(score(30, 4, 150, "weights=0,0,0"), 0);
        assert_eq!(score(400, 12, 0, "weights=1,1,1"), 66);
        assert_eq!(score(400, 12, 0, "weights=1,1,1 prefer=cold"), 33);
    }

    #[test]
    fn a_divisor_divides() {
        for divisor in [1, 2, 3, 7, 10, 99, 1000, 65535, 196_605, 1_048_575, 1_048_576] {
            let by = Divisor::of(divisor);
            for number in (0..(1 << 27)).step_by(9973).chain([99 * 1_048_576, (1 << 27) - 1]) {
                assert_eq!(by.quotient(number), number / divisor);
            }
        }
    }
}
