//! Runs whose error norm can be a NaN though Newton's method has converged: the new state overflows under relative tolerance 0, or
//! it vanishes under an infinite one, or the correction itself overflows.
use crate::config::Config;
use crate::make::Manner;
use crate::random::Random;
use crate::systems::System;
use ivp::methods::Tolerance;

/// A state close to the largest double, or a few times the least one, one slope for some equal steps, by which the order rises, and from the
/// turn on others.
pub fn brink(random: &mut Random) -> (Config, System, Manner) {
    let overflows = !random.once_in(4);
    let wavers = overflows && random.once_in(6);
    let n = random.pick(&[1, 1, 1, 2, 2, 3, 4]);
    let h = random.pick(if wavers { &[2.0, 3.0, 40.0] } else { &[1.0, 1.0, 1.0, 0.5, 3.0, 0.05, 1e-3] });
    // far from 0 a step that was halved some ten times moves nothing
    let x0 = h * random.pick(&[0.0, 0.0, 0.0, 1.0, -2.5, 2f64.powi(40), -2f64.powi(45)]);
    // the order is chosen after steps 2, 5, 9, 14 and 20, where all are equal
    let turn = (random.pick(if wavers { &[0] } else { &[0, 0, 1, 2, 3, 6, 8, 12, 15, 18] }) + random.below(3)) as f64 + 0.5;
    let length = h * (turn.ceil() + random.below(16) as f64);
    let xend = x0 + if random.once_in(3) { -length } else { length };
    let size = |random: &mut Random| match overflows {
        // c times it is that part of the largest double, at order 1
        true if wavers => random.pick(&[0.3, 0.35, 0.4, 0.45, 0.95, 0.99]) * (f64::MAX / h * 1.185),
        true => (random.pick(&[0.0, 1e306, 1e307, 1e308, 1e308, f64::MAX]) / h).min(f64::MAX),
        false => least(random.below(5) as f64 / h),
    };
    let gentle = match overflows {
        true => random.pick(&[0.0, 0.0, 0.0, 0.0, 1e292, 1e300]) / h,
        false => least(random.pick(&[0.0, 0.0, 0.0, 1.0]) / h),
    };
    let sign = |random: &mut Random| random.pick(&[1.0, -1.0]);
    let y0: Vec<f64> = (0..n)
        .map(|_| match overflows {
            true => random.pick(&[f64::MAX, f64::MAX, f64::MAX, 1.797e308, 1.7e308, 1e308]) * sign(random),
            false => least(random.from_to(1, 3) as f64) * sign(random),
        })
        .collect();
    // mostly to where the first component overflows or vanishes
    let away = y0[0].signum() * (xend - x0).signum() * if overflows { 1.0 } else { -1.0 };
    let mut slopes = [(); 4].map(|_| size(random) * if random.once_in(6) { -away } else { away });
    if slopes[3] * away <= 0.0 && !random.once_in(4) {
        // the first to be met
        slopes[3] = away * if overflows { 1e308 } else { least(1.0 / h) };
    }
    let shares = (0..n).map(|i| if i == 0 { 1.0 } else { random.pick(&[1.0, -1.0, 0.5, 0.0]) }).collect();
    let mut config = Config::plain(random.pick(&[60, 60, 100, 30, 20]), 4, x0, xend, y0);
    settings(random, &mut config, h, overflows);
    if wavers {
        // a correction may overflow as the sum of its passes: under a relative tolerance above 0 the scale is infinite too
        config.rtol = tolerance(random, n, &[0.0, 1e-3, 1e-3, 1.0]);
        config.atol = tolerance(random, n, &[1e308, f64::MAX, f64::INFINITY]);
        config.newton_tol = random.pick(&[None, Some(f64::INFINITY), Some(f64::INFINITY)]);
    }
    let manner = match random.below(8) {
        _ if wavers => Manner::AnyJacobian { size: 0.75 / h },
        0..=3 => Manner::Honest,
        4 | 5 => Manner::AnyJacobian { size: random.decade(-2.0, 0.5) / h },
        6 => Manner::SingularAtOrder { h: if xend < x0 { -h } else { h } },
        _ => Manner::Faulty { once_in: random.pick(&[20, 100]) },
    };
    let before = gentle * sign(random);
    (config, System::Brink { x0, h, turn, before, slopes, shares, wavers }, manner)
}

/// So many times the least double.
fn least(times: f64) -> f64 {
    times.round() * f64::from_bits(1)
}

fn settings(random: &mut Random, config: &mut Config, h: f64, overflows: bool) {
    let n = config.y0.len();
    if overflows {
        config.rtol = tolerance(random, n, &[0.0, 0.0, 0.0, 0.0, 0.0, 0.0, 0.0, 1e-3, 1.0]);
        config.atol = tolerance(random, n, &[1e308, 1e308, 1e307, f64::MAX, f64::INFINITY, 1e300, 1.0, 1e-6]);
    } else {
        config.rtol = tolerance(random, n, &[f64::INFINITY, f64::INFINITY, f64::INFINITY, f64::INFINITY, f64::INFINITY, 1e300, 0.0]);
        config.atol = tolerance(random, n, &[0.0, 1e-6, 1.0, f64::INFINITY]);
    }
    if !random.once_in(8) {
        config.first_step = Some(h);
    }
    if !random.once_in(4) {
        config.max_step = Some(h);
    }
    if random.once_in(6) {
        config.min_step = Some(h * random.pick(&[1.0, 0.5, 0.2, 1e-3]));
    }
    if random.once_in(6) {
        config.newton_tol = Some(random.pick(&[1e-3, 1.0, 1e300, f64::INFINITY]));
    }
    config.newton_maxiter = random.pick(&[4, 4, 4, 4, 4, 4, 3, 3, 2, 2, 1, 10]);
}

/// One number for all, or a vector of them.
fn tolerance(random: &mut Random, n: usize, values: &[f64]) -> Tolerance {
    match random.below(3) {
        0 => Tolerance::Vector((0..n + random.below(2)).map(|_| random.pick(values)).collect()),
        _ => Tolerance::Scalar(random.pick(values)),
    }
}
