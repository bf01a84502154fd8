//! The powers of docs/RULES.md, the inverse root as 02 §4 has it, over whole numbers and without powf. Written from the rules alone.

/// rate times itself, left to right: `power` factors.
pub fn whole_power(rate: f64, power: usize) -> f64 {
    let mut product = rate;
    for _ in 1..power {
        product *= rate;
    }
    product
}

/// x to the power 1 / iord, which the rules know for iord 1 alone.
pub fn first_power(x: f64, iord: usize) -> f64 {
    assert!(iord == 1);
    x
}

/// The inverse k-th root, x to the power -1/k; `None` where k is outside 1..7.
pub fn inverse_root(k: u64, x: f64) -> Option<f64> {
    if k < 1 || 7 < k {
        return None;
    }
    Some(if x.is_nan() || x < 0.0 {
        f64::NAN
    } else if x == 0.0 {
        f64::INFINITY
    } else if x == f64::INFINITY {
        0.0
    } else {
        nearest_root(k, x)
    })
}

/// The same where the caller's k is 1..7 by its place.
pub fn inverse_root_in_range(k: usize, x: f64) -> f64 {
    inverse_root(k as u64, x).unwrap()
}

/// The double nearest to x to the power -1/k, for finite x above 0: as one rounds by hand, ties to even, and what is too great for a
/// finite double to infinity. With x = m * 2^e the root times 2^places is the k-th root of 2^(k places - e) / m. Its whole part is found
/// bit by bit at one place more than is kept, and that place and what lies below it decide.
fn nearest_root(k: u64, x: f64) -> f64 {
    let (m, e) = parts(x);
    // the root is at least 2^top and below 2^(top + 1): the greatest power of two whose k-th power times x is at most 1
    let log = 64 - i64::from((m - 1).leading_zeros());
    let top = (-e - log).div_euclid(k as i64);
    // a double above 0 has 53 bits, and none below 2^-1074
    let places = (52 - top).min(1074);
    let power = k as i64 * (places + 1) - e;
    let whole = (0..=53).rev().fold(0, |t, i| if product(m, t | 1 << i, k).at_most_power_of_two(power) { t | 1 << i } else { t });
    let exact = product(m, whole, k).is_power_of_two(power);
    let (kept, half) = (whole >> 1, whole & 1 == 1);
    let rounded = if half && (!exact || kept & 1 == 1) { kept + 1 } else { kept };
    // rounded * 2^-places: what reaches 2^53 carries into the next exponent, and from infinity's pattern on it is infinity
    let pattern = ((1074 - places) as u64 * (1 << 52)) + rounded;
    f64::from_bits(pattern.min(f64::INFINITY.to_bits()))
}

/// m * t^k
fn product(m: u64, t: u64, k: u64) -> Whole {
    (0..k).fold(Whole::of(m), |product, _| product.times(t))
}

/// A finite double not below 0 as m * 2^e.
fn parts(x: f64) -> (u64, i64) {
    let bits = x.to_bits();
    let (field, fraction) = ((bits >> 52) as i64, bits & ((1 << 52) - 1));
    if field == 0 { (fraction, -1074) } else { (fraction | 1 << 52, field - 1075) }
}

/// A whole number below 2^512, least digit first: one factor below 2^53 and seven below 2^54 fit.
struct Whole([u64; 8]);

impl Whole {
    fn of(m: u64) -> Whole {
        Whole([m, 0, 0, 0, 0, 0, 0, 0])
    }

    fn times(&self, s: u64) -> Whole {
        let mut digits = [0; 8];
        let mut carry = 0u128;
        for i in 0..8 {
            let sum = self.0[i] as u128 * s as u128 + carry;
            digits[i] = sum as u64;
            carry = sum >> 64;
        }
        assert!(carry == 0);
        Whole(digits)
    }

    /// The number of its binary digits.
    fn length(&self) -> i64 {
        (0..8).rev().find(|&i| self.0[i] != 0).map_or(0, |i| 64 * i as i64 + 64 - i64::from(self.0[i].leading_zeros()))
    }

    /// self = 2^q: one bit alone is set, and it is that one
    fn is_power_of_two(&self, q: i64) -> bool {
        self.length() == q + 1 && self.0.iter().map(|d| d.count_ones()).sum::<u32>() == 1
    }

    /// self <= 2^q, for a number above 0
    fn at_most_power_of_two(&self, q: i64) -> bool {
        self.length() <= q || self.is_power_of_two(q)
    }
}
