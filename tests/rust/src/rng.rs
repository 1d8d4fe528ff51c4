//! A small deterministic source of random numbers (SplitMix64).

#[derive(Clone, Debug)]
pub struct Rng {
    state: u64,
}

impl Rng {
    pub fn new(seed: u64) -> Self {
        Rng { state: seed }
    }

    /// The source for one numbered case of a seed.
    pub fn for_case(seed: u64, case: u64) -> Self {
        Rng::new(Rng::new(seed).draw().wrapping_add(Rng::new(case).draw()))
    }

    /// The next 64 random bits.
    pub fn draw(&mut self) -> u64 {
        self.state = self.state.wrapping_add(0x9e37_79b9_7f4a_7c15);
        let mut mixed = self.state;
        mixed = (mixed ^ (mixed >> 30)).wrapping_mul(0xbf58_476d_1ce4_e5b9);
        mixed = (mixed ^ (mixed >> 27)).wrapping_mul(0x94d0_49bb_1331_11eb);
        mixed ^ (mixed >> 31)
    }

    /// A number below `bound`, which must not be 0.
    pub fn below(&mut self, bound: usize) -> usize {
        (self.draw() % bound as u64) as usize
    }

    /// A number from `low` to `high`, both included.
    pub fn between(&mut self, low: u32, high: u32) -> u32 {
        low + (self.draw() % (u64::from(high - low) + 1)) as u32
    }

    /// A fraction from 0 up to, but without, 1.
    pub fn fraction(&mut self) -> f64 {
        (self.draw() >> 11) as f64 / (1u64 << 53) as f64
    }

    /// A number from `low` to `high`, each size as likely as the next;
    /// `low` must not be 0.
    pub fn of_any_size(&mut self, low: u32, high: u32) -> u32 {
        let ratio = (f64::from(high) + 1.0) / f64::from(low);
        let number = f64::from(low) * ratio.powf(self.fraction());
        (number as u32).clamp(low, high)
    }

    /// True `hits` times out of `of`.
    pub fn chance(&mut self, hits: usize, of: usize) -> bool {
        self.below(of) < hits
    }

    pub fn pick<T: Copy>(&mut self, items: &[T]) -> T {
        items[self.below(items.len())]
    }

    /// A number just below, at or just above one of these limits.
    pub fn around(&mut self, limits: &[u64]) -> u64 {
        let step = self.pick(&[u64::MAX, 0, 1]);
        self.pick(limits).wrapping_add(step)
    }
}
