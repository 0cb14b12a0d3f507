//! The marks of all pages, a bit each. The pass in a page's word is left out: no report shows it.

pub struct Marks {
    words: Vec<u64>,
}

/// Picks with fewer pages between them than this often lie in one word.
const DENSE: usize = 12;

impl Marks {
    pub fn new(pages: u32) -> Marks {
        Marks { words: vec![0; (pages as usize + 63) / 64] }
    }

    pub fn touch(&mut self, pages: &[u32]) {
        for &page in pages {
            self.words[page as usize / 64] |= 1 << (page % 64);
        }
    }

    pub fn sweep(&mut self, first: u32, end: u32) {
        for_words(first, end, |at, mask| self.words[at] |= mask);
    }

    /// Clears the marks of picks, which rise.
    pub fn clear(&mut self, picks: &[u32]) {
        let (first, last) = match picks {
            [first, .., last] => (*first, *last),
            _ => return picks.iter().for_each(|&page| self.words[page as usize / 64] &= !(1 << (page % 64))),
        };
        if (last - first) as usize / picks.len() >= DENSE {
            for &page in picks {
                self.words[page as usize / 64] &= !(1 << (page % 64));
            }
            return;
        }
        // A word that was just stored would have to come back from memory for the next pick in it.
        let mut at = first as usize / 64;
        let mut word = self.words[at];
        for &page in picks {
            let next = page as usize / 64;
            if next != at {
                self.words[at] = word;
                at = next;
                word = self.words[at];
            }
            word &= !(1 << (page % 64));
        }
        self.words[at] = word;
    }

    pub fn load(&self, picks: &[u32], loaded: &mut [u8]) {
        for (&page, bit) in picks.iter().zip(loaded) {
            *bit = (self.words[page as usize / 64] >> (page % 64)) as u8 & 1;
        }
    }
}

/// The words of the pages from one to before another, each with the bits of these pages in it.
pub fn for_words(first: u32, end: u32, mut each: impl FnMut(usize, u64)) {
    let (low, high) = (first as usize / 64, (end - 1) as usize / 64);
    let front = u64::MAX << (first % 64);
    let back = u64::MAX >> (63 - (end - 1) % 64);
    if low == high {
        return each(low, front & back);
    }
    each(low, front);
    for at in low + 1..high {
        each(at, u64::MAX);
    }
    each(high, back);
}

#[cfg(test)]
mod tests {
    use super::*;

    #[test]
    fn marks_are_those_of_a_list_of_bits() {
        let pages = 300u32;
        for step in [1, 3, 7, 40, 130] {
            let mut marks = Marks::new(pages);
            let mut bits = vec![0u8; pages as usize];
            for (first, end) in [(0, 1), (63, 65), (70, 128), (128, 192), (199, 300)] {
                marks.sweep(first, end);
                bits[first as usize..end as usize].fill(1);
            }
            marks.touch(&[2, 68]);
            bits[2] = 1;
            bits[68] = 1;
            let picks: Vec<u32> = (0..pages).step_by(step).collect();
            marks.clear(&picks);
            picks.iter().for_each(|&page| bits[page as usize] = 0);
            let all: Vec<u32> = (0..pages).collect();
            let mut loaded = vec![9; pages as usize];
            marks.load(&all, &mut loaded);
            assert_eq!(loaded, bits);
        }
    }
}
