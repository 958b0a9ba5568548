//! A generator of random numbers of its own: the same numbers for the same seed, everywhere.

/// The seed of a run: `CARD_SEED` of the environment, or one that is always the same.
pub fn seed() -> u64 {
    std::env::var("CARD_SEED").map_or(20_240_607, |seed| seed.parse().expect("CARD_SEED is a number"))
}

pub struct Rng(u64);

impl Rng {
    pub fn new(seed: u64, stream: u64) -> Rng {
        let mut r = Rng(seed ^ stream.wrapping_mul(0xd134_2543_de82_ef95));
        r.number();
        r
    }

    pub fn number(&mut self) -> u64 {
        self.0 = self.0.wrapping_add(0x9e37_79b9_7f4a_7c15);
        let mut z = self.0;
        z = (z ^ (z >> 30)).wrapping_mul(0xbf58_476d_1ce4_e5b9);
        z = (z ^ (z >> 27)).wrapping_mul(0x94d0_49bb_1331_11eb);
        z ^ (z >> 31)
    }

    /// A number below n; n is not 0.
    pub fn below(&mut self, n: u64) -> u64 {
        self.number() % n
    }

    pub fn word(&mut self) -> u32 {
        (self.number() >> 16) as u32
    }

    /// True once in so many times.
    pub fn once_in(&mut self, n: u64) -> bool {
        self.below(n) == 0
    }

    pub fn pick<T: Copy>(&mut self, from: &[T]) -> T {
        from[self.below(from.len() as u64) as usize]
    }
}
