//! Numbers at random from a seed, the same on every machine, and doubles that go to the edges.

/// splitmix64
pub struct Random(u64);

impl Random {
    pub fn new(seed: u64) -> Random {
        Random(seed)
    }

    pub fn bits(&mut self) -> u64 {
        self.0 = self.0.wrapping_add(0x9E37_79B9_7F4A_7C15);
        let mut z = self.0;
        z = (z ^ (z >> 30)).wrapping_mul(0xBF58_476D_1CE4_E5B9);
        z = (z ^ (z >> 27)).wrapping_mul(0x94D0_49BB_1331_11EB);
        z ^ (z >> 31)
    }

    pub fn below(&mut self, n: usize) -> usize {
        (self.bits() % n as u64) as usize
    }

    /// lo..=hi
    pub fn from_to(&mut self, lo: usize, hi: usize) -> usize {
        lo + self.below(hi - lo + 1)
    }

    /// True once in n.
    pub fn once_in(&mut self, n: usize) -> bool {
        self.below(n) == 0
    }

    pub fn pick<T: Copy>(&mut self, from: &[T]) -> T {
        from[self.below(from.len())]
    }

    /// 0 up to 1
    pub fn unit(&mut self) -> f64 {
        (self.bits() >> 11) as f64 * 2f64.powi(-53)
    }

    /// -1 up to 1
    pub fn signed(&mut self) -> f64 {
        2.0 * self.unit() - 1.0
    }

    /// Ten to a power between the two, at random.
    pub fn decade(&mut self, lo: f64, hi: f64) -> f64 {
        10f64.powf(lo + (hi - lo) * self.unit())
    }

    /// A finite number above 0 with any exponent.
    pub fn positive(&mut self) -> f64 {
        f64::from_bits(1 + self.bits() % (f64::INFINITY.to_bits() - 1))
    }

    /// A power of two that is a double, or one of its neighbours.
    pub fn near_power_of_two(&mut self) -> f64 {
        let bits = match self.below(4) {
            0 => 1 << self.below(52),
            _ => (1 + self.bits() % 2046) << 52,
        };
        f64::from_bits(match self.below(3) {
            0 => bits,
            1 => bits - 1,
            _ => bits + 1,
        })
    }

    /// Any double: zeros, subnormals, powers of two and their neighbours, the ends, infinities, NaN, any pattern.
    pub fn edge(&mut self) -> f64 {
        let x = match self.below(12) {
            0 => 0.0,
            1 => f64::from_bits(1 + self.bits() % ((1 << 52) - 1)),
            2 => f64::from_bits(1 + self.bits() % 3),
            3 => f64::from_bits(f64::MIN_POSITIVE.to_bits() - 1 + self.bits() % 3),
            4 => f64::from_bits(f64::INFINITY.to_bits() - 1 - self.bits() % 3),
            5 => f64::INFINITY,
            6 => f64::NAN,
            7 => self.near_power_of_two(),
            8 => self.from_to(1, 9) as f64,
            9 => self.unit(),
            10 => f64::from_bits(self.bits()),
            _ => self.positive(),
        };
        if self.once_in(2) { -x } else { x }
    }
}
