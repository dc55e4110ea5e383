//! Random numbers that a seed fixes: xoshiro256**, started by splitmix64 (Blackman and Vigna).

pub struct Rng {
    state: [u64; 4],
}

impl Rng {
    pub fn new(seed: u64) -> Self {
        let mut start = seed;
        Self { state: std::array::from_fn(|_| splitmix(&mut start)) }
    }

    /// The numbers of one kind of comparison, which stay what they are when another kind is added.
    pub fn of_kind(seed: u64, kind: &str) -> Self {
        let named = kind.bytes().fold(seed, |state, byte| splitmix(&mut (state ^ u64::from(byte))));
        Self::new(named)
    }

    pub fn number(&mut self) -> u64 {
        let [a, b, c, d] = self.state;
        let (c, d) = (c ^ a, d ^ b);
        self.state = [a ^ d, b ^ c, c ^ (b << 17), d.rotate_left(45)];
        b.wrapping_mul(5).rotate_left(7).wrapping_mul(9)
    }

    /// Below `bound`, which is not 0.
    pub fn below(&mut self, bound: u64) -> u64 {
        let product = u128::from(self.number()) * u128::from(bound);
        (product >> 64) as u64
    }

    pub fn within(&mut self, low: u64, high: u64) -> u64 {
        match (high - low).checked_add(1) {
            Some(count) => low + self.below(count),
            None => self.number(),
        }
    }

    pub fn pick<T: Copy>(&mut self, items: &[T]) -> T {
        items[self.below(items.len() as u64) as usize]
    }

    pub fn one_in(&mut self, count: u64) -> bool {
        self.below(count) == 0
    }

    /// From 1 to `most`, each size in bits as likely as any other.
    pub fn of_any_size(&mut self, most: u64) -> u64 {
        let bits = self.within(1, u64::from(64 - most.leading_zeros()));
        let low = 1 << (bits - 1);
        self.within(low, most.min(low + (low - 1)))
    }
}

fn splitmix(state: &mut u64) -> u64 {
    *state = state.wrapping_add(0x9e37_79b9_7f4a_7c15);
    let mixed = (*state ^ (*state >> 30)).wrapping_mul(0xbf58_476d_1ce4_e5b9);
    let mixed = (mixed ^ (mixed >> 27)).wrapping_mul(0x94d0_49bb_1331_11eb);
    mixed ^ (mixed >> 31)
}
