//! Kinds 1 to 5: square root, inverse root, LU, solve and interpolation, put to the Rust under the refusals of docs/RULES.md.
use crate::random::Random;
use crate::words::{Stream, Unfit, hex, push_doubles, words_of, word};
use ivp::matrix::{Matrix, lin_solve, lu_decomp};
use ivp::methods::BDF;

/// The hardware's square root is IEEE 754's.
pub fn answer_sqrt(stream: &mut Stream) -> Result<String, Unfit> {
    Ok(hex(stream.double()?.sqrt()))
}

pub fn answer_inverse_root(stream: &mut Stream) -> Result<String, Unfit> {
    let (k, x) = (stream.word()?, stream.double()?);
    Ok(powers::inverse_root(k, x).map_or("R 14".into(), hex))
}

pub fn answer_lu(stream: &mut Stream) -> Result<String, Unfit> {
    let n = stream.count(33)?;
    let mut ip = stream.numbers(n)?;
    let mut a = Matrix::from_vec(n, n, stream.doubles(n * n)?);
    let mut line = String::from(match n {
        0 | 33 => "R 14",
        _ if lu_decomp(&mut a, &mut ip).is_err() => "R 15",
        _ => "ok",
    });
    for i in ip {
        line += &format!(" {i}");
    }
    push_doubles(&mut line, &a.data);
    Ok(line)
}

pub fn answer_solve(stream: &mut Stream) -> Result<String, Unfit> {
    let n = stream.count(33)?;
    let ip = stream.numbers(n)?;
    let a = Matrix::from_vec(n, n, stream.doubles(n * n)?);
    let mut b = stream.doubles(n)?;
    if n == 0 || n == 33 {
        return Ok("R 14".into());
    }
    if ip[..n - 1].iter().any(|&m| m >= n) {
        return Ok("R 16".into());
    }
    lin_solve(&a, &mut b, &ip);
    Ok(doubles_alone(&b))
}

pub fn answer_interpolation(stream: &mut Stream) -> Result<String, Unfit> {
    let n = stream.count(64)?;
    let (xi, xold, h) = (stream.double()?, stream.double()?, stream.double()?);
    let mut yi = stream.doubles(n)?;
    let cont = stream.doubles(7 * n)?;
    if n > 32 {
        return Ok("R 1".into());
    }
    BDF::interpolate(xi, &mut yi, &cont, xold, h);
    Ok(doubles_alone(&yi))
}

fn doubles_alone(xs: &[f64]) -> String {
    let mut line = String::new();
    push_doubles(&mut line, xs);
    line.split_off(line.len().min(1))
}

pub fn case_sqrt(random: &mut Random) -> Vec<u64> {
    let x = match random.below(8) {
        0 => random.edge(),
        1 => random.positive(),
        // a square, exact or rounded, and its neighbours
        2 => {
            let r = random_root(random, 27);
            beside(random, r * r)
        }
        3 => {
            let r = random_root(random, 53);
            beside(random, r * r)
        }
        // the square of a number halfway between two doubles: the hardest to round
        4 => {
            let r = random_root(random, 53);
            beside(random, r * r + r)
        }
        5 => f64::from_bits(random.bits() >> random.from_to(12, 63)),
        6 => random.near_power_of_two(),
        _ => random.unit() * 4.0,
    };
    vec![1, word(x)]
}

/// A whole number of that many bits, times a power of two that keeps its square a normal double.
fn random_root(random: &mut Random, bits: usize) -> f64 {
    let whole = (random.bits() >> (64 - bits) | 1 << (bits - 1)) as f64;
    if random.once_in(2) { whole } else { whole * 2f64.powi(random.below(900) as i32 - 480) }
}

/// x or a double close by.
fn beside(random: &mut Random, x: f64) -> f64 {
    f64::from_bits((x.to_bits() + random.bits() % 5).saturating_sub(2))
}

pub fn case_inverse_root(random: &mut Random) -> Vec<u64> {
    let k = match random.below(12) {
        0 => random.pick(&[0, 8, 9, 64]),
        _ => random.from_to(1, 7),
    };
    let x = match random.below(8) {
        0 => random.edge(),
        1 => random.positive(),
        2 => random.near_power_of_two(),
        // a power of a short number, whose root is close to it
        3 => {
            let r = random.from_to(1, 1 << 20) as f64 * 2f64.powi(random.below(40) as i32 - 20);
            beside(random, r.powi(-(k as i32)))
        }
        4 => {
            let power = 2f64.powi(random.below(2000) as i32 - 1000);
            beside(random, power)
        }
        // below a power of 2^k by k times an odd number of steps: the root lies close above a middle, the hardest to round
        5 => {
            let power = 2f64.powi(k.min(7) as i32 * (random.below(60) as i32 - 30));
            let steps = if random.once_in(2) { 1 } else { 2 * random.below(1 << 10) + 1 };
            f64::from_bits(power.to_bits() - (k * steps) as u64)
        }
        // below the normal ones, where k 1 comes to infinity
        6 => f64::from_bits(random.bits() >> random.from_to(12, 63)),
        _ => random.decade(-12.0, 12.0),
    };
    vec![2, k as u64, word(x)]
}

/// n mostly small, at times up to 32, now and then outside.
fn case_size(random: &mut Random) -> usize {
    match random.below(40) {
        0 => 0,
        1 => 33,
        2 => 32,
        3..=8 => random.from_to(7, 31),
        _ => random.from_to(1, 6),
    }
}

/// A matrix by rows in one of several styles, each meant for a branch of the factoring.
pub fn case_matrix(random: &mut Random, n: usize) -> Vec<f64> {
    let style = random.below(7);
    let mut a: Vec<f64> = (0..n * n)
        .map(|i| match style {
            // ties for the pivot, zero multipliers, singular stages
            0 => random.from_to(0, 4) as f64 - 2.0,
            1 => random.edge(),
            2 => random.signed() * random.decade(-8.0, 8.0),
            // upper triangular: a zero on the diagonal stops its very stage
            3 => if i / n > i % n { random.pick(&[0.0, -0.0]) } else { random.from_to(1, 3) as f64 },
            _ => random.signed(),
        })
        .collect();
    if n == 0 {
        return a;
    }
    let (row, other, column) = (random.below(n), random.below(n), random.below(n));
    match random.below(8) {
        0 => (0..n).for_each(|r| a[r * n + column] = 0.0),
        1 => (0..n).for_each(|c| a[row * n + c] = a[other * n + c]),
        2 => a[row * n + column] = random.edge(),
        3 => a[column * n + column] = random.pick(&[0.0, -0.0]),
        _ => {}
    }
    if style == 3 && random.once_in(2) {
        (0..n).for_each(|c| a.swap(row * n + c, other * n + c));
    }
    if random.once_in(6) {
        (0..n).for_each(|i| if random.once_in(3) { a[i * n + random.below(n)] = random.pick(&[0.0, -0.0]) });
    }
    a
}

pub fn case_lu(random: &mut Random) -> Vec<u64> {
    let n = case_size(random);
    let mut words = vec![3, n as u64];
    words.extend((0..n).map(|_| if random.once_in(4) { random.bits() } else { random.bits() % 100 }));
    words.extend(words_of(&case_matrix(random, n)));
    words
}

pub fn case_solve(random: &mut Random) -> Vec<u64> {
    let n = case_size(random);
    let mut a = case_matrix(random, n);
    let mut ip: Vec<usize> = (0..n).map(|_| random.below(n)).collect();
    if 0 < n && n < 33 && random.once_in(2) {
        let mut matrix = Matrix::from_vec(n, n, a);
        let _ = lu_decomp(&mut matrix, &mut ip);
        a = matrix.data;
    }
    if n > 0 && random.once_in(8) {
        ip[random.below(n)] = random.pick(&[n, n + 1, 32, 33, usize::MAX]);
    }
    // the last pivot is never read
    if n > 0 && random.once_in(4) {
        ip[n - 1] = random.bits() as usize;
    }
    let edges = random.once_in(4);
    let b: Vec<f64> = (0..n).map(|_| if edges { random.edge() } else { random.signed() }).collect();
    let mut words = vec![4, n as u64];
    words.extend(ip.iter().map(|&m| m as u64));
    words.extend(words_of(&a));
    words.extend(words_of(&b));
    words
}

const MARKS: [f64; 22] = [
    1.0, 2.0, 3.0, 4.0, 5.0, 1.25, 1.5, 2.5, 3.5, 4.5, 1.4999999999999998, 2.4999999999999996, 3.4999999999999996, 4.499999999999999,
    9.0, 0.0, -0.0, -3.0, 0.49999999999999994, f64::NAN, f64::INFINITY, f64::NEG_INFINITY,
];

pub fn case_interpolation(random: &mut Random) -> Vec<u64> {
    let n = match random.below(10) {
        0 => random.pick(&[0, 33, 32, 64]),
        _ => random.from_to(1, 5),
    };
    let xold = if random.once_in(6) { random.edge() } else { random.signed() * random.decade(-3.0, 3.0) };
    let h = match random.below(6) {
        0 => random.pick(&[0.0, -0.0]),
        1 => random.edge(),
        _ => random.signed() * random.decade(-6.0, 2.0),
    };
    let xi = match random.below(5) {
        0 => random.edge(),
        1 => xold + h,
        2 => xold,
        _ => xold + h * random.unit(),
    };
    let edges = random.once_in(4);
    let mut cont: Vec<f64> = (0..7 * n).map(|_| if edges { random.edge() } else { random.signed() }).collect();
    for i in 0..n {
        // the first component's mark alone is read
        cont[7 * i + 6] = if i == 0 && random.once_in(8) { random.edge() } else { random.pick(&MARKS) };
    }
    let mut words = vec![5, n as u64, word(xi), word(xold), word(h)];
    words.extend((0..n).map(|_| word(random.edge())));
    words.extend(words_of(&cont));
    words
}
