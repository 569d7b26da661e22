//! Random numbers of our own (SplitMix64), so that a seed means the same run everywhere.

/// How a number that was drawn is brought below a bound. Recorded questions were made by the one, and what is written of pages cut
/// off was counted by the other, so that both stay.
#[derive(Clone, Copy)]
enum Scale {
    Remainder,
    Product,
}

#[derive(Clone)]
pub struct Random {
    state: u64,
    scale: Scale,
}

impl Random {
    pub fn new(seed: u64) -> Random {
        Random {
            state: seed,
            scale: Scale::Remainder,
        }
    }

    /// A source for one input of one kind. It depends on nothing else, so any input can be made again alone.
    pub fn for_input(seed: u64, kind: u64, index: u64) -> Random {
        let mut mix = Random::new(seed ^ kind.wrapping_mul(0xd6e8_feb8_6659_fd93));
        Random::new(mix.draw() ^ index.wrapping_mul(0xa076_1d64_78bd_642f))
    }

    /// A source for one page that is cut, whose numbers are brought below a bound by a product.
    pub fn for_page(seed: u64, page: u64) -> Random {
        let start = Random::new(seed).draw().wrapping_add(page);
        Random {
            state: start.wrapping_mul(0xd134_2543_de82_ef95),
            scale: Scale::Product,
        }
    }

    pub fn draw(&mut self) -> u64 {
        self.state = self.state.wrapping_add(0x9e37_79b9_7f4a_7c15);
        let mut z = self.state;
        z = (z ^ (z >> 30)).wrapping_mul(0xbf58_476d_1ce4_e5b9);
        z = (z ^ (z >> 27)).wrapping_mul(0x94d0_49bb_1331_11eb);
        z ^ (z >> 31)
    }

    /// A number below `bound`; 0 if there is none.
    pub fn below(&mut self, bound: usize) -> usize {
        match self.scale {
            Scale::Remainder if bound == 0 => 0,
            Scale::Remainder => (self.draw() % bound as u64) as usize,
            Scale::Product => ((u128::from(self.draw()) * bound as u128) >> 64) as usize,
        }
    }

    /// A number from `low` to `high`, inclusive.
    pub fn between(&mut self, low: usize, high: usize) -> usize {
        low + self.below(high - low + 1)
    }

    /// True once in so many times.
    pub fn once_in(&mut self, times: usize) -> bool {
        self.below(times) == 0
    }

    pub fn byte(&mut self) -> u8 {
        self.draw() as u8
    }

    /// One of some.
    pub fn of<'s, T>(&mut self, some: &'s [T]) -> &'s T {
        &some[self.below(some.len())]
    }

    /// One of some that are lent.
    pub fn pick<'t, T: ?Sized>(&mut self, from: &[&'t T]) -> &'t T {
        from[self.below(from.len())]
    }

    /// One of some byte strings, of whatever lengths they are written.
    pub fn text<'t>(&mut self, from: &[&'t [u8]]) -> &'t [u8] {
        self.pick(from)
    }

    /// At most `most` different entries of a list, in its order.
    pub fn some_of<T: Clone>(&mut self, from: &[T], most: usize) -> Vec<T> {
        let mut left = most.min(from.len());
        let mut taken = Vec::with_capacity(left);
        for (i, entry) in from.iter().enumerate() {
            if self.below(from.len() - i) < left {
                taken.push(entry.clone());
                left -= 1;
            }
        }
        taken
    }
}

/// Each source draws the numbers with which recorded questions were made, or which documents have counts of.
#[cfg(test)]
mod tests {
    use super::*;

    fn six(random: &mut Random) -> [usize; 6] {
        [(); 6].map(|()| random.below(1000))
    }

    #[test]
    fn of_a_seed() {
        let mut random = Random::new(1);
        assert_eq!(random.draw(), 10_451_216_379_200_822_465);
        assert_eq!(random.draw(), 13_757_245_211_066_428_519);
        assert_eq!(random.draw(), 17_911_839_290_282_890_590);
        assert_eq!(six(&mut random), [235, 761, 48, 45, 533, 520]);
    }

    #[test]
    fn of_an_input() {
        let mut random = Random::for_input(5, 6, 7);
        assert_eq!(six(&mut random), [835, 20, 977, 58, 46, 244]);
        let digits: Vec<usize> = (0..10).collect();
        assert_eq!(random.some_of(&digits, 4), [3, 4, 6, 7]);
        // nothing is drawn where there is nothing to choose from
        assert_eq!(random.below(0), 0);
        assert_eq!(random.below(1000), 39);
    }

    #[test]
    fn of_a_page() {
        let mut random = Random::for_page(1, 2);
        assert_eq!(six(&mut random), [36, 615, 53, 83, 979, 654]);
        assert_eq!((random.byte(), random.between(10, 99)), (41, 26));
        // and here a number is drawn
        assert_eq!(random.below(0), 0);
        assert_eq!(random.below(1000), 194);
    }
}
