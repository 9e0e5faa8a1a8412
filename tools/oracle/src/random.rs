//! A small generator (splitmix64), so that a script is a function of its seed.

pub struct Random(u64);

impl Random {
    pub fn new(seed: u64) -> Self {
        Self(seed)
    }

    pub fn next(&mut self) -> u64 {
        self.0 = self.0.wrapping_add(0x9E37_79B9_7F4A_7C15);
        let mut z = self.0;
        z = (z ^ (z >> 30)).wrapping_mul(0xBF58_476D_1CE4_E5B9);
        z = (z ^ (z >> 27)).wrapping_mul(0x94D0_49BB_1331_11EB);
        z ^ (z >> 31)
    }

    pub fn below(&mut self, n: usize) -> usize {
        (self.next() % n as u64) as usize
    }

    /// From 0 up to, not including, 1.
    pub fn unit(&mut self) -> f64 {
        (self.next() >> 11) as f64 / 9007199254740992.0
    }

    /// From -1 up to 1.
    pub fn either_way(&mut self) -> f64 {
        2.0 * self.unit() - 1.0
    }

    pub fn chance(&mut self, p: f64) -> bool {
        self.unit() < p
    }

    pub fn pick<T: Copy>(&mut self, of: &[T]) -> T {
        of[self.below(of.len())]
    }

    /// Between two powers of two, all sizes alike.
    pub fn size(&mut self, least: i32, most: i32) -> f64 {
        let e = least + self.below((most - least) as usize + 1) as i32;
        (1.0 + self.unit()) * 2f64.powi(e)
    }

    /// A whole number from 1 to most, all sizes alike.
    pub fn count(&mut self, most: usize) -> usize {
        ((most as f64).powf(self.unit()) as usize).clamp(1, most)
    }
}
