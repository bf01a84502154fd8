//! Cases whose answers docs/RULES.md, docs/JOB-FORMAT.md, docs/transcript.md, docs/DIFFERENCES.md and, for the inverse root of numbers
//! below the normal ones, crates/roots/proofs/promises/Overflow.antt print; and its hardest roundings. Those of each setting stand at the
//! head of its part of the stored sample.
use crate::GUARDED;
use crate::config::Config;
use crate::make::record;
use crate::systems::System;
use crate::ways::{nan_errors, ways};
use crate::words::{word, words_of};
use ivp::methods::Tolerance;

pub struct Known {
    pub words: Vec<u64>,
    pub text: &'static str,
}

/// Of the guarded setting a few runs alone, since no leaf depends on it; of the other all, and those runs again.
pub fn known() -> Vec<Known> {
    if GUARDED {
        return nan_errors();
    }
    [leaves(), interpolations(), runs(), ways(), nan_errors()].into_iter().flatten().collect()
}

fn leaves() -> Vec<Known> {
    let sqrt = |x: f64, text| Known { words: vec![1, word(x)], text };
    let root = |k, x: f64, text| Known { words: vec![2, k, word(x)], text };
    let matrix = |kind, head: &[u64], xs: &[f64], text| {
        let mut words = vec![kind];
        words.extend(head);
        words.extend(words_of(xs));
        Known { words, text }
    };
    // 1 less k steps: the root lies above the middle between 1 and the next double, by about (k + 1) * 2^-107
    let hardest = (1..8).map(|k| root(k, f64::from_bits(1f64.to_bits() - k), "3FF0000000000001\n"));
    let printed = vec![
        sqrt(2.25, "3FF8000000000000\n"),
        sqrt(f64::from_bits(1), "1E60000000000000\n"),
        root(2, 0.25, "4000000000000000\n"),
        root(3, 8.0, "3FE0000000000000\n"),
        // 02 §4; in the first edition 3FB9999999999999
        root(1, 10.0, "3FB999999999999A\n"),
        root(4, 0.0, "7FF0000000000000\n"),
        root(0, 1.0, "R 14\n"),
        root(8, 1.0, "R 14\n"),
        root(7, 1.0, "3FF0000000000000\n"),
        // k 1 around the numbers whose root is infinite, the least normal one, and the largest, whose root is below the normal ones
        root(1, f64::from_bits(1), "7FF0000000000000\n"),
        root(1, f64::from_bits(0x4_0000_0000_0000), "7FF0000000000000\n"),
        root(1, f64::from_bits(0x4_0000_0000_0001), "7FEFFFFFFFFFFFF8\n"),
        root(1, f64::from_bits(0xF_FFFF_FFFF_FFFF), "7FD0000000000001\n"),
        root(1, f64::MIN_POSITIVE, "7FD0000000000000\n"),
        root(1, f64::MAX, "0004000000000000\n"),
        matrix(3, &[2, 7, 9], &[2.0, 1.0, 4.0, 6.0], "ok 1 9 4010000000000000 4018000000000000 BFE0000000000000 C000000000000000\n"),
        matrix(4, &[2, 1, 9], &[4.0, 6.0, -0.5, -2.0, 5.0, 14.0], "4000000000000000 3FF0000000000000\n"),
        matrix(3, &[1, 5], &[0.0], "R 15 5 0000000000000000\n"),
    ];
    printed.into_iter().chain(hardest).collect()
}

/// With these coefficients the value at xi is the order that the mark is read as.
fn interpolations() -> Vec<Known> {
    let read_as = |mark: f64, text| {
        let mut words = vec![5, 1];
        words.extend(words_of(&[2.0, 0.0, 1.0, 9.0, 0.0, 1.0, 1.0, 1.0, 1.0, 1.0, mark]));
        Known { words, text }
    };
    vec![
        read_as(1.25, "3FF0000000000000\n"),
        read_as(1.5, "4000000000000000\n"),
        read_as(9.0, "4014000000000000\n"),
        read_as(f64::NAN, "0000000000000000\n"),
    ]
}

/// y' = 0 with y0 = 1, as in the first job of docs/JOB-FORMAT.md.
fn still(max_steps: u64, xend: f64, first_step: Option<f64>, max_step: Option<f64>) -> Vec<u64> {
    let mut config = Config::plain(max_steps, 4, 0.0, xend, vec![1.0]);
    config.first_step = first_step;
    config.max_step = max_step;
    record(&config, System::Linear { a: vec![0.0] })
}

/// The first job under a Newton limit.
fn still_under(newton_maxiter: u64) -> Vec<u64> {
    let mut config = Config::plain(100_000, newton_maxiter, 0.0, 1.0, vec![1.0]);
    config.first_step = Some(0.5);
    record(&config, System::Linear { a: vec![0.0] })
}

/// y' = -y under a Newton limit.
fn decay(newton_maxiter: u64) -> Vec<u64> {
    let mut config = Config::plain(3, newton_maxiter, 0.0, 1.0, vec![1.0]);
    config.first_step = Some(0.25);
    record(&config, System::Linear { a: vec![-1.0] })
}

fn runs() -> Vec<Known> {
    let many = |n: usize| {
        let mut config = Config::plain(2, 4, 0.0, 1.0, vec![1.0; n]);
        config.first_step = Some(0.5);
        config.atol = Tolerance::Scalar(1.0);
        record(&config, System::Linear { a: vec![0.0; n * n] })
    };
    vec![
        Known { words: still(100_000, 1.0, Some(0.5), None), text: FIRST_JOB },
        Known { words: still(1, 1.0, Some(0.5), None), text: FIRST_JOB_OF_ONE_STEP },
        Known { words: still(100_000, 0.0, Some(0.5), None), text: "+E 3 0000000000000000 0 0 0 1 1 0 0\n" },
        Known { words: still(100_000, 0.0, Some(0.5), Some(1.0)), text: "+E 0 3FE0000000000000 0 0 0 1 1 0 0\n" },
        Known { words: still(100_000, 0.0, None, None), text: "+E 3 0000000000000000 0 0 0 1 1 0 1\n" },
        Known { words: still(100_000, 1.0, Some(0.0), None), text: "R 8 0000000000000000 3FF0000000000000\n" },
        Known { words: many(32), text: "+E 0 3FE0000000000000 2 2 0 3 1 1 0\n" },
        Known { words: many(33), text: "R 1\n" },
        Known { words: many(0), text: "E 0 0000000000000000 0 0 0 0 0 0 0\n" },
        // with a limit of 0, read as 1, a correction of norm 0 converges
        Known { words: still_under(0), text: FIRST_JOB },
        // y' = -y never has a correction of norm 0: with a limit of 0, read as 1, every attempt fails
        Known { words: decay(0), text: "+E 2 3FA0000000000000 3 0 3 4 4 3 0\n" },
        Known { words: decay(1), text: "+E 2 3FA0000000000000 3 0 3 4 4 3 0\n" },
    ]
}

const FIRST_JOB: &str = "\
D 0000000000000000 3FF0000000000000
J 0000000000000000 3FF0000000000000
I 0000000000000000 3FF0000000000000
D 3FE0000000000000 3FF0000000000000
S 0000000000000000 3FE0000000000000 0000000000000000 3FE0000000000000 3FF0000000000000 3FF0000000000000 0000000000000000 0000000000000000 0000000000000000 0000000000000000 0000000000000000 3FF0000000000000
D 3FF0000000000000 3FF0000000000000
S 3FE0000000000000 3FF0000000000000 3FE0000000000000 3FE0000000000000 3FF0000000000000 3FF0000000000000 0000000000000000 0000000000000000 0000000000000000 0000000000000000 0000000000000000 3FF0000000000000
E 0 3FE0000000000000 2 2 0 3 1 1 0
";

const FIRST_JOB_OF_ONE_STEP: &str = "\
D 0000000000000000 3FF0000000000000
J 0000000000000000 3FF0000000000000
I 0000000000000000 3FF0000000000000
D 3FE0000000000000 3FF0000000000000
S 0000000000000000 3FE0000000000000 0000000000000000 3FE0000000000000 3FF0000000000000 3FF0000000000000 0000000000000000 0000000000000000 0000000000000000 0000000000000000 0000000000000000 3FF0000000000000
E 2 3FE0000000000000 1 1 0 2 1 1 0
";

/// Whether an answer is the one printed; after `+` only its last lines are.
pub fn as_printed(known: &Known, answer: &str) -> bool {
    match known.text.strip_prefix('+') {
        None => answer == known.text,
        Some(last) => answer.ends_with(&format!("\n{last}")),
    }
}
