//! Pseudo-random numbers: xoshiro256** with its state filled by splitmix64.

pub struct Random {
    state: [u64; 4],
}

/// A number that differs well from its neighbours', for seeds in a row.
fn mixed(seed: u64) -> u64 {
    let mut z = seed.wrapping_add(0x9E37_79B9_7F4A_7C15);
    z = (z ^ (z >> 30)).wrapping_mul(0xBF58_476D_1CE4_E5B9);
    z = (z ^ (z >> 27)).wrapping_mul(0x94D0_49BB_1331_11EB);
    z ^ (z >> 31)
}

/// The seed of list `place` of a run: runs of neighbouring seeds share none.
pub fn seed_of(seed: u64, place: u64) -> u64 {
    mixed(mixed(seed).wrapping_add(place))
}

impl Random {
    pub fn new(seed: u64) -> Random {
        let mut state = [0; 4];
        let mut last = seed;
        for word in &mut state {
            last = mixed(last);
            *word = last;
        }
        Random { state }
    }

    pub fn number(&mut self) -> u64 {
        let s = &mut self.state;
        let result = s[1].wrapping_mul(5).rotate_left(7).wrapping_mul(9);
        let t = s[1] << 17;
        s[2] ^= s[0];
        s[3] ^= s[1];
        s[1] ^= s[2];
        s[0] ^= s[3];
        s[2] ^= t;
        s[3] = s[3].rotate_left(45);
        result
    }

    /// Below `bound`, which is not 0.
    pub fn below(&mut self, bound: usize) -> usize {
        ((u128::from(self.number()) * bound as u128) >> 64) as usize
    }

    /// From `least` to `most`, both included.
    pub fn between(&mut self, least: usize, most: usize) -> usize {
        least + self.below(most - least + 1)
    }

    pub fn chance(&mut self, percent: usize) -> bool {
        self.below(100) < percent
    }

    pub fn pick<T: Copy>(&mut self, from: &[T]) -> T {
        from[self.below(from.len())]
    }

    /// A place in a list of weights, each as likely as its weight says.
    pub fn weighted(&mut self, weights: &[usize]) -> usize {
        let places: Vec<(usize, usize)> = weights.iter().copied().enumerate().collect();
        self.choose(&places)
    }

    /// One of a list, each as likely as the weight beside it says.
    pub fn choose<T: Copy>(&mut self, from: &[(T, usize)]) -> T {
        let mut left = self.below(from.iter().map(|(_, weight)| weight).sum());
        for (choice, weight) in from {
            if left < *weight {
                return *choice;
            }
            left -= weight;
        }
        unreachable!("the weights add up to their sum")
    }

    /// A number at most `by` away from `point`, wrapping.
    pub fn near(&mut self, point: u64, by: usize) -> u64 {
        point
            .wrapping_sub(by as u64)
            .wrapping_add(self.between(0, 2 * by) as u64)
    }

    pub fn bytes(&mut self, length: usize) -> Vec<u8> {
        let mut bytes = Vec::with_capacity(length + 8);
        while bytes.len() < length {
            bytes.extend_from_slice(&self.number().to_le_bytes());
        }
        bytes.truncate(length);
        bytes
    }
}
