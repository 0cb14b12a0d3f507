//! The picks of all passes of a journal and which of them were hits, for the receipts that come behind them.

/// A pick is kept as the 16 low bits of its page, in the block that has the other bits.
const BLOCK_BITS: u32 = 16;

pub struct Passes {
    blocks: usize,
    low: Vec<u16>,
    /// For each pass and each block the end of its picks in `low`.
    ends: Vec<u32>,
    /// A bit for each pick: a hit of which no receipt has been seen.
    open: Vec<u64>,
    number_open: u64,
}

impl Passes {
    pub fn new(pages: u32) -> Passes {
        let blocks = ((pages - 1) >> BLOCK_BITS) as usize + 1;
        Passes { blocks, low: Vec::new(), ends: Vec::new(), open: Vec::new(), number_open: 0 }
    }

    /// Adds the picks of the next pass, which rise.
    pub fn add(&mut self, picks: &[u32]) {
        let before = self.low.len();
        self.low.extend(picks.iter().map(|&page| page as u16));
        for block in 1..=self.blocks {
            let inside = match block == self.blocks {
                true => picks.len(),
                false => picks.partition_point(|&page| page >> BLOCK_BITS < block as u32),
            };
            self.ends.push((before + inside) as u32);
        }
        self.open.resize((self.low.len() + 63) / 64, 0);
    }

    /// Says that a pick of the last pass was a hit. `from_end` is 1 for its last pick.
    pub fn hit(&mut self, from_end: usize) {
        let at = self.low.len() - from_end;
        self.open[at / 64] |= 1 << (at % 64);
        self.number_open += 1;
    }

    /// Takes a receipt of a page with a pass from 1 on as its tag; false where that pass did not clear the page.
    pub fn take(&mut self, pass: u32, page: u32) -> bool {
        let block = (pass as usize - 1) * self.blocks + (page >> BLOCK_BITS) as usize;
        let end = match self.ends.get(block) {
            Some(&end) => end as usize,
            None => return false,
        };
        let first = if block == 0 { 0 } else { self.ends[block - 1] as usize };
        let at = match self.low[first..end].binary_search(&(page as u16)) {
            Ok(at) => first + at,
            Err(_) => return false,
        };
        let bit = 1 << (at % 64);
        self.number_open -= (self.open[at / 64] & bit != 0) as u64;
        self.open[at / 64] &= !bit;
        true
    }

    /// Whether each hit has a receipt.
    pub fn are_settled(&self) -> bool {
        self.number_open == 0
    }
}

#[cfg(test)]
mod tests {
    use super::*;

    #[test]
    fn receipts_settle_the_hits_of_their_pass() {
        let mut passes = Passes::new(200_000);
        passes.add(&[3, 65_535, 65_536, 199_999]);
        passes.hit(4);
        passes.hit(1);
        passes.add(&[3, 70_000]);
        passes.hit(1);
        assert!(!passes.take(1, 4) && !passes.take(1, 70_000) && !passes.take(3, 3));
        assert!(passes.take(2, 3) && passes.take(1, 65_535) && passes.take(1, 65_536));
        assert!(passes.take(1, 3) && passes.take(1, 3) && passes.take(1, 199_999));
        assert!(!passes.are_settled());
        assert!(passes.take(2, 70_000) && passes.are_settled());
    }
}
