//! Numbers, drawings, sheets and texts that are drawn at random, the same ones for the same seed.

pub mod damage;
pub mod others;
pub mod shapes;
pub mod texts;

/// A generator of numbers (splitmix64).
#[derive(Clone, Debug)]
pub struct Random {
    state: u64,
}

impl Random {
    pub fn seeded(seed: u64) -> Random {
        Random { state: seed }
    }

    /// Any word.
    pub fn word(&mut self) -> u64 {
        self.state = self.state.wrapping_add(0x9E37_79B9_7F4A_7C15);
        let mixed = (self.state ^ self.state >> 30).wrapping_mul(0xBF58_476D_1CE4_E5B9);
        let mixed = (mixed ^ mixed >> 27).wrapping_mul(0x94D0_49BB_1331_11EB);
        mixed ^ mixed >> 31
    }

    /// A number below the bound, which is not 0.
    pub fn below(&mut self, bound: usize) -> usize {
        let bound = u64::try_from(bound).expect("a number fits a word");
        usize::try_from(self.word() % bound).expect("it is below the bound")
    }

    /// A number from the lowest to the highest, both included.
    pub fn between(&mut self, lowest: usize, highest: usize) -> usize {
        lowest + self.below(highest - lowest + 1)
    }

    /// True one time in so many.
    pub fn one_in(&mut self, times: usize) -> bool {
        self.below(times) == 0
    }

    /// One of a list that is not empty.
    pub fn pick<'a, Item>(&mut self, list: &'a [Item]) -> &'a Item {
        &list[self.below(list.len())]
    }

    pub fn shuffle<Item>(&mut self, list: &mut [Item]) {
        for last in (1..list.len()).rev() {
            list.swap(last, self.below(last + 1));
        }
    }

    /// The numbers below the bound in some order.
    pub fn order(&mut self, bound: usize) -> Vec<usize> {
        let mut numbers: Vec<usize> = (0..bound).collect();
        self.shuffle(&mut numbers);
        numbers
    }
}

#[cfg(test)]
mod tests {
    use super::*;

    #[test]
    fn a_seed_gives_the_same_numbers_again() {
        let words = |seed: u64| {
            let mut random = Random::seeded(seed);
            [random.word(), random.word(), random.word()]
        };
        assert_eq!(words(7), words(7));
        assert_ne!(words(7), words(8));
    }

    #[test]
    fn numbers_keep_their_bounds() {
        let mut random = Random::seeded(1);
        let drawn: Vec<usize> = (0..1_000).map(|_| random.between(3, 6)).collect();
        for number in 0..10 {
            assert_eq!(drawn.contains(&number), (3..=6).contains(&number));
        }
        let mut order = random.order(50);
        order.sort_unstable();
        assert!(order.into_iter().eq(0..50));
    }
}
