//! Numbers from a seed (splitmix64), so that every random run can be repeated.

pub struct RandomNumbers {
    state: u64,
}

impl RandomNumbers {
    pub fn new(seed: u64) -> RandomNumbers {
        RandomNumbers { state: seed }
    }

    pub fn any(&mut self) -> u64 {
        self.state = self.state.wrapping_add(0x9e37_79b9_7f4a_7c15);
        let mut mixed = self.state;
        mixed = (mixed ^ (mixed >> 30)).wrapping_mul(0xbf58_476d_1ce4_e5b9);
        mixed = (mixed ^ (mixed >> 27)).wrapping_mul(0x94d0_49bb_1331_11eb);
        mixed ^ (mixed >> 31)
    }

    /// Below `limit`, which is at least 1.
    pub fn below(&mut self, limit: u64) -> u64 {
        self.any() % limit
    }

    /// From `low` to `high`, both included.
    pub fn between(&mut self, low: u64, high: u64) -> u64 {
        low + self.below(high - low + 1)
    }

    /// True once in `times`.
    pub fn once_in(&mut self, times: u64) -> bool {
        self.below(times) == 0
    }

    pub fn pick<T: Copy>(&mut self, from: &[T]) -> T {
        from[self.below(from.len() as u64) as usize]
    }

    /// 1 to 2^bits, small numbers as likely as large ones.
    pub fn sized(&mut self, bits: u64) -> u64 {
        let limit = 1 << self.between(0, bits);
        self.between(1, limit)
    }

    /// A number beside a power of two at which something changes; 2^64 wraps to 0.
    pub fn boundary(&mut self, order: u32) -> u64 {
        let bits = self.pick(&[0, 1, 31, 32, 32, 33, 33, 63, 63, 64, 64, order - 1, order]);
        let power = if bits == 64 { 0 } else { 1u64 << bits };
        power.wrapping_add(self.below(5)).wrapping_sub(2)
    }
}
