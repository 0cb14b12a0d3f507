//! The random words of a script: PCG XSH RR with 64 bits of state, from the script's seed and the stream 54.

const MULTIPLIER: u64 = 6364136223846793005;
const INCREMENT: u64 = (54 << 1) | 1;
const LANES: usize = 4;
const FOUR: Jump = Jump::of(LANES as u64);

/// A number of steps of the generator at once: the state becomes `state * multiplier + addend`.
#[derive(Clone, Copy)]
pub struct Jump {
    multiplier: u64,
    addend: u64,
}

impl Jump {
    pub const fn of(steps: u64) -> Jump {
        let mut whole = Jump { multiplier: 1, addend: 0 };
        let mut power = Jump { multiplier: MULTIPLIER, addend: INCREMENT };
        let mut left = steps;
        while left > 0 {
            if left & 1 == 1 {
                whole = whole.then(power);
            }
            power = power.then(power);
            left >>= 1;
        }
        whole
    }

    const fn then(self, next: Jump) -> Jump {
        Jump {
            multiplier: self.multiplier.wrapping_mul(next.multiplier),
            addend: self.addend.wrapping_mul(next.multiplier).wrapping_add(next.addend),
        }
    }

    fn from(self, state: u64) -> u64 {
        state.wrapping_mul(self.multiplier).wrapping_add(self.addend)
    }
}

#[derive(Clone)]
pub struct Random {
    state: u64,
    drawn: u64,
}

impl Random {
    pub fn new(seed: u64) -> Random {
        Random { state: Jump::of(1).from(seed.wrapping_add(INCREMENT)), drawn: 0 }
    }

    /// The number of words that were drawn or skipped so far.
    pub fn drawn(&self) -> u64 {
        self.drawn
    }

    pub fn next(&mut self) -> u32 {
        let word = output(self.state);
        self.skip(1, Jump::of(1));
        word
    }

    /// Skips words by their jump, which is `Jump::of(words)`.
    pub fn skip(&mut self, words: u64, jump: Jump) {
        self.state = jump.from(self.state);
        self.drawn += words;
    }

    /// Draws a word for each place. Four states go on side by side: one alone would wait for its own multiplication.
    pub fn fill(&mut self, places: &mut [u32]) {
        let mut lanes = [self.state; LANES];
        for lane in 1..LANES {
            lanes[lane] = Jump::of(1).from(lanes[lane - 1]);
        }
        let mut groups = places.chunks_exact_mut(LANES);
        for group in &mut groups {
            for (place, state) in group.iter_mut().zip(&mut lanes) {
                *place = output(*state);
                *state = FOUR.from(*state);
            }
        }
        let rest = groups.into_remainder();
        rest.iter_mut().zip(&lanes).for_each(|(place, state)| *place = output(*state));
        self.state = lanes[rest.len()];
        self.drawn += places.len() as u64;
    }
}

#[inline]
fn output(state: u64) -> u32 {
    ((((state >> 18) ^ state) >> 27) as u32).rotate_right((state >> 59) as u32)
}

#[cfg(test)]
mod tests {
    use super::*;

    #[test]
    fn the_words_are_those_of_the_page() {
        let mut random = Random::new(42);
        assert_eq!([random.next(), random.next(), random.next()], [2707161783, 2068313097, 3122475824]);
    }

    #[test]
    fn draws_and_skips_lead_to_the_same_words() {
        for count in 0..11 {
            let (mut one, mut side, mut jumped) = (Random::new(7), Random::new(7), Random::new(7));
            let alone: Vec<u32> = (0..count).map(|_| one.next()).collect();
            let mut drawn = vec![0; count];
            side.fill(&mut drawn);
            jumped.skip(count as u64, Jump::of(count as u64));
            assert_eq!(alone, drawn);
            let next = one.next();
            assert_eq!((next, next), (side.next(), jumped.next()));
            assert_eq!((side.drawn(), jumped.drawn()), (one.drawn(), one.drawn()));
        }
    }
}
