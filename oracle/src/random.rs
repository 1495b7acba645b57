//! A small generator (splitmix64): the same seed gives the same cases everywhere.

pub struct Random(u64);

impl Random {
    /// The generator of one operation: seeds that differ by one give unrelated cases.
    pub fn new(seed: u64, operation: &str) -> Random {
        let mut r = Random(seed);
        for b in operation.bytes() {
            r.0 = r.bits() ^ u64::from(b);
        }
        r
    }

    pub fn bits(&mut self) -> u64 {
        self.0 = self.0.wrapping_add(0x9e37_79b9_7f4a_7c15);
        let a = (self.0 ^ (self.0 >> 30)).wrapping_mul(0xbf58_476d_1ce4_e5b9);
        let b = (a ^ (a >> 27)).wrapping_mul(0x94d0_49bb_1331_11eb);
        b ^ (b >> 31)
    }

    /// A number from 0 up to n, n left out; n is far below 2^64.
    pub fn below(&mut self, n: u64) -> u64 {
        self.bits() % n
    }

    /// A number from low to high, both included.
    pub fn between(&mut self, low: i64, high: i64) -> i64 {
        low + self.below((high - low + 1) as u64) as i64
    }

    pub fn yes(&mut self) -> bool {
        self.bits() % 2 == 1
    }

    pub fn pick(&mut self, list: &[f64]) -> f64 {
        list[self.below(list.len() as u64) as usize]
    }

    /// x with a sign at random.
    pub fn signed(&mut self, x: f64) -> f64 {
        if self.yes() { -x } else { x }
    }

    /// A number in [1, 2), its digits at random.
    pub fn digits(&mut self) -> f64 {
        f64::from_bits(0x3ff0_0000_0000_0000 | self.bits() >> 12)
    }
}
