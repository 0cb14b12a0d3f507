//! The picks of a pass: a random page of each row.

use crate::random::Random;
use crate::rows::Rows;

#[derive(Default)]
pub struct Picks {
    pub pages: Vec<u32>,
}

impl Picks {
    pub fn draw(&mut self, rows: &Rows, random: &mut Random) {
        self.pages.resize(rows.len(), 0);
        random.fill(&mut self.pages);
        for ((word, &start), &pages) in self.pages.iter_mut().zip(&rows.start).zip(&rows.pages) {
            *word = start + remainder(*word, pages);
        }
    }
}

/// `word % pages`, by a division of doubles, of which processors do two at a time. The quotient `(word + 1/2) / pages`
/// is at least `1/2 / pages` away from each whole number. So the whole number nearest to it less 1/2 is the quotient
/// rounded down, also after rounding, since a word is below 2^32 and a double has 53 bits. From 2^52 on doubles are
/// whole numbers: the sum with such a number has the quotient in its low bits.
#[inline]
fn remainder(word: u32, pages: u32) -> u32 {
    const WHOLE: f64 = (1u64 << 52) as f64;
    let number = |low: u32| f64::from_bits(WHOLE.to_bits() | low as u64) - WHOLE;
    let quotient = (number(word) + 0.5) / number(pages) - 0.5;
    // 1.5 * 2^52 and not 2^52, since the quotient may be a little below 0.
    let whole = (quotient + 1.5 * WHOLE).to_bits() as u32;
    word.wrapping_sub(whole.wrapping_mul(pages))
}

#[cfg(test)]
mod tests {
    use super::*;
    use crate::rows::tests::rows_of;

    #[test]
    fn picks_are_those_of_the_page() {
        let rows = rows_of(&[(2, 0); 8]);
        let mut picks = Picks::default();
        picks.draw(&rows, &mut Random::new(7));
        assert_eq!(picks.pages, [1, 2, 5, 6, 8, 11, 12, 15]);
    }

    #[test]
    fn remainders_are_right_at_all_sizes() {
        for pages in (1..70).chain([99, 1000, 4095, 65_537, 262_144, 999_983, 1_048_575, 1_048_576]) {
            let edges = (0..50u32).map(|part| u32::MAX / pages / 50 * part * pages);
            for word in edges.flat_map(|edge| [edge, edge.wrapping_sub(1), edge + 1]).chain([
                u32::MAX,
                u32::MAX - 1,
                0,
                1,
                2,
                pages / 4,
                pages / 2,
            ]) {
                assert_eq!(remainder(word, pages), word % pages, "{word} % {pages}");
            }
        }
    }
}
