//! Numbers that look random, the same ones each time.

pub struct Dice(u64);

impl Dice {
    /// The dice of one case of a seed.
    pub fn new(seed: u64, number: u64) -> Dice {
        let of_seed = Dice(seed).number();
        Dice(of_seed ^ number.wrapping_mul(0xD134_2543_DE82_EF95))
    }

    /// Steele, Lea and Flood's SplitMix64.
    pub fn number(&mut self) -> u64 {
        self.0 = self.0.wrapping_add(0x9E37_79B9_7F4A_7C15);
        let mixed = (self.0 ^ (self.0 >> 30)).wrapping_mul(0xBF58_476D_1CE4_E5B9);
        let mixed = (mixed ^ (mixed >> 27)).wrapping_mul(0x94D0_49BB_1331_11EB);
        mixed ^ (mixed >> 31)
    }

    /// A number below the limit, which is above zero.
    pub fn below(&mut self, limit: usize) -> usize {
        (self.number() % limit as u64) as usize
    }

    pub fn one_in(&mut self, many: usize) -> bool {
        self.below(many) == 0
    }

    pub fn pick<T: Copy>(&mut self, from: &[T]) -> T {
        from[self.below(from.len())]
    }

    /// One of them, if there are any.
    pub fn find<T: Copy>(&mut self, from: &[T]) -> Option<T> {
        if from.is_empty() {
            None
        } else {
            Some(self.pick(from))
        }
    }

    /// So many of them, in any order.
    pub fn some<T>(&mut self, many: usize, mut from: Vec<T>) -> Vec<T> {
        (0..many.min(from.len()))
            .map(|_| from.swap_remove(self.below(from.len())))
            .collect()
    }

    /// A value: mostly small, so that two are often the same, and at times near an end.
    pub fn value(&mut self) -> u32 {
        match self.below(10) {
            0 => self.pick(&[u32::MAX, u32::MAX - 1, 1 << 31, (1 << 31) - 1]),
            1 => self.number() as u32,
            _ => self.below(4) as u32,
        }
    }
}
