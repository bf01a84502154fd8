//! bench DIR: our functions beside the Rust's, on the same numbers, in one run. Ours are driven by the programs in DIR, which
//! take their own time; the Rust is called here. Rounds alternate and the quickest of each side counts. A row says whether
//! both came to the same bits: for powers and runs that is asked of the Rust with the powers of docs/RULES.md put in. A
//! power's time is that of the Rust as it is; a run's is told of both.
#[allow(dead_code)]
#[path = "../../oracle/src/random.rs"]
mod random;
mod problems;
mod rust;

use problems::Problem;
use random::Random;
use std::hint::black_box;
use std::io::Write;
use std::path::{Path, PathBuf};
use std::process::{Command, Stdio};

const ROUNDS: usize = 9;

fn main() {
    let dir = PathBuf::from(std::env::args().nth(1).expect("bench DIR"));
    println!("{:<26} {:>10} {:>10} {:>8}  {:<9} {}", "what", "ours, ns", "Rust, ns", "ratio", "same bits", "goal");
    let random = &mut Random::new(1);
    roots(&dir, random);
    matrix(&dir, random);
    interpolation(&dir, random);
    rescaling(&dir, random);
    runs(&dir);
    jobs(&dir, random);
    cvode(&dir);
}

/// One row: `input` is what the driver is given after the count of times; a time holds `units` calls.
struct Row<'a> {
    what: String,
    driver: PathBuf,
    head: Vec<u64>,
    input: Vec<u64>,
    times: u64,
    units: f64,
    rust: &'a dyn Fn() -> f64,
    expected: &'a dyn Fn() -> f64,
    goal: &'static str,
}

impl Row<'_> {
    fn print(self) {
        if !self.driver.exists() {
            println!("{:<26} {:>10}", self.what, "-");
            return;
        }
        let (mut ours, mut theirs, mut same) = (f64::INFINITY, f64::INFINITY, true);
        let mut expected = 0.0;
        for _ in 0..self.times {
            expected += (self.expected)();
        }
        for _ in 0..ROUNDS {
            let (ns, sum) = drive(&self.driver, &[&self.head[..], &[self.times], &self.input].concat());
            ours = ours.min(ns / (self.times as f64 * self.units));
            same &= sum.to_bits() == expected.to_bits();
            let start = nanoseconds();
            for _ in 0..self.times {
                black_box((self.rust)());
            }
            theirs = theirs.min((nanoseconds() - start) as f64 / (self.times as f64 * self.units));
        }
        println!("{:<26} {ours:>10.1} {theirs:>10.1} {:>8.2}  {:<9} {}", self.what, ours / theirs, if same { "yes" } else { "NO" }, self.goal);
    }
}

unsafe extern "C" {
    fn clock_gettime(clock: i32, time: *mut [i64; 2]) -> i32;
    fn getrusage(who: i32, usage: *mut [i64; 18]) -> i32;
}

/// The processor time that this process has used, as the drivers take it: the clock 2 of C's library on Linux.
fn nanoseconds() -> i64 {
    let mut time = [0; 2];
    unsafe { clock_gettime(2, &mut time) };
    time[0] * 1_000_000_000 + time[1]
}

/// What a program prints, given those words.
fn told(driver: &Path, words: &[u64]) -> String {
    let mut child = Command::new(driver).stdin(Stdio::piped()).stdout(Stdio::piped()).spawn().unwrap();
    let bytes: Vec<u8> = words.iter().flat_map(|w| w.to_be_bytes()).collect();
    child.stdin.take().unwrap().write_all(&bytes).unwrap();
    let output = child.wait_with_output().unwrap();
    let text = String::from_utf8(output.stdout).unwrap();
    assert!(output.status.success(), "{}: {text}", driver.display());
    text
}

/// The nanoseconds and the number that a driver prints.
fn drive(driver: &Path, words: &[u64]) -> (f64, f64) {
    let text = told(driver, words);
    let fields: Vec<u64> = text.split_whitespace().map(|f| f.parse().unwrap()).collect();
    assert!(fields.len() == 2, "{}: {text}", driver.display());
    (fields[0] as f64, f64::from_bits(fields[1]))
}

fn fields(driver: &Path, words: &[u64]) -> Vec<f64> {
    told(driver, words).split_whitespace().map(|f| f.parse().unwrap()).collect()
}

fn words(xs: &[f64]) -> Vec<u64> {
    xs.iter().map(|x| x.to_bits()).collect()
}

fn roots(dir: &Path, random: &mut Random) {
    let xs: Vec<f64> = (0..1024).map(|_| random.decade(-12.0, 12.0)).collect();
    let input = [&[xs.len() as u64][..], &words(&xs)].concat();
    let sqrt = || xs.iter().fold(0.0, |sum, x| sum + black_box(x).sqrt());
    let row = |what: String, k: usize, rust: &dyn Fn() -> f64, expected: &dyn Fn() -> f64, goal: &'static str| {
        Row { what, driver: dir.join("roots"), head: vec![k as u64], input: input.clone(), times: 200, units: xs.len() as f64, rust, expected, goal }.print()
    };
    row("sqrt (Rust: hardware)".into(), 0, &sqrt, &sqrt, "ours at most 30, better 20");
    for k in 1..=7 {
        let rust = || xs.iter().fold(0.0, |sum, x| sum + black_box(x).powf(-1.0 / k as f64));
        let exact: f64 = xs.iter().fold(0.0, |sum, &x| sum + powers::inverse_root_in_range(k, x));
        row(format!("inverse root {k} (powf)"), k, &rust, &|| exact, "ours at most 120");
    }
}

fn matrix(dir: &Path, random: &mut Random) {
    for n in [4, 16, 32] {
        let a: Vec<f64> = (0..n * n).map(|_| random.signed()).collect();
        let b: Vec<f64> = (0..n).map(|_| random.signed()).collect();
        let zeros = vec![0.0; n];
        let times = 400_000 / (n * n) as u64;
        let factor = || rust::factor(&a, n);
        let driver = dir.join("matrix");
        let input = [&[n as u64][..], &vec![0; n], &words(&a), &words(&zeros)].concat();
        let goal = "";
        Row { what: format!("LU, n {n}"), driver: driver.clone(), head: vec![0], input, times, units: 1.0, rust: &factor, expected: &factor, goal }.print();
        let (lu, ip) = rust::factors(&a, n);
        let solve = || rust::solve(&lu, &b, &ip);
        let pivots: Vec<u64> = ip.iter().map(|&m| m as u64).collect();
        let input = [&[n as u64][..], &pivots, &words(&lu.data), &words(&b)].concat();
        Row { what: format!("solve, n {n}"), driver, head: vec![1], input, times, units: 1.0, rust: &solve, expected: &solve, goal }.print();
    }
}

fn interpolation(dir: &Path, random: &mut Random) {
    for n in [4, 16, 32] {
        let mut cont: Vec<f64> = (0..7 * n).map(|_| random.signed()).collect();
        (0..n).for_each(|i| cont[7 * i + 6] = 5.0);
        let places: Vec<f64> = (0..16).map(|i| 0.1 + i as f64 / 64.0).collect();
        let (xold, h) = (0.1, 0.25);
        let values = || places.iter().fold(0.0, |sum, &xi| sum + rust::interpolate(xi, &cont, xold, h, n));
        let input = [&[n as u64][..], &words(&places), &words(&[xold, h]), &words(&cont)].concat();
        let what = format!("interpolation, n {n}");
        Row { what, driver: dir.join("interpolate"), head: vec![], input, times: 3_000, units: 16.0, rust: &values, expected: &values, goal: "" }.print();
    }
}

/// change_d by 16 factors, each on a copy of D.
fn rescaling(dir: &Path, random: &mut Random) {
    for (n, order) in [(1, 1), (1, 5), (4, 1), (4, 3), (4, 5), (32, 1), (32, 5)] {
        let factors: Vec<f64> = (0..16).map(|i| 0.2 + i as f64 / 7.0).collect();
        let d: Vec<f64> = (0..(order + 1) * n).map(|_| random.signed()).collect();
        let rows: Vec<Vec<f64>> = d.chunks(n).map(<[f64]>::to_vec).collect();
        let values = || factors.iter().fold(0.0, |sum, &factor| sum + rust::rescale(&rows, factor));
        let input = [&[n as u64, order as u64][..], &words(&factors), &words(&d)].concat();
        let what = format!("change_d, n {n}, order {order}");
        Row { what, driver: dir.join("rescale"), head: vec![], input, times: 3_000, units: 16.0, rust: &values, expected: &values, goal: "" }.print();
    }
}

/// Whole runs: ours, the Rust with the powers of docs/RULES.md put in, and the Rust as it is, in turn. Ours and the first go the
/// same way to the bit, so their attempts are the same.
fn runs(dir: &Path) {
    println!();
    println!("{:<30} {:>5} {:>8} {:>30} {:>30} {:>17}", "", "", "", "a run, us", "an attempt, ns", "ratio to");
    println!(
        "{:<30} {:>5} {:>8} {:>10}{:>10}{:>10} {:>10}{:>10}{:>10} {:>8}{:>9}  {}",
        "a run of", "rtol", "attempts", "ours", "patched", "unaltered", "ours", "patched", "unaltered", "patched", " unaltered", "same bits"
    );
    for problem in problems::all() {
        for (rtol, atol) in TOLERANCES {
            one_run(dir, &problem, rtol, atol);
        }
    }
}

/// The job program as a whole process beside one over the Rust with the powers of docs/RULES.md put in: reading, solving, printing.
fn jobs(dir: &Path, random: &mut Random) {
    println!();
    println!("{:<26} {:>8} {:>10} {:>10} {:>8}  {}", "a job, as a process", "lines", "ours, ms", "patched", "ratio", "same bytes");
    for (n, xend, rtol) in [(1, 500.0, 1e-9), (4, 400.0, 1e-8), (16, 150.0, 1e-8), (32, 40.0, 1e-8)] {
        let job = problems::long_job(n, xend, rtol, random);
        let (mut best, mut told) = ([f64::INFINITY; 2], [vec![], vec![]]);
        for _ in 0..ROUNDS {
            for (i, program) in ["run_job", "job"].iter().enumerate() {
                let start = children();
                told[i] = printed(&dir.join(program), &job);
                best[i] = best[i].min(children() - start);
            }
        }
        let lines = told[0].iter().filter(|&&b| b == b'\n').count();
        let same = if told[0] == told[1] { "yes" } else { "NO" };
        println!("{:<26} {lines:>8} {:>10.2} {:>10.2} {:>8.2}  {same}", format!("n {n}"), best[0], best[1], best[0] / best[1]);
    }
}

/// What a program prints for a job. Its lines are few enough bytes that nobody waits for the other.
fn printed(program: &Path, job: &[u8]) -> Vec<u8> {
    let mut child = Command::new(program).stdin(Stdio::piped()).stdout(Stdio::piped()).spawn().unwrap();
    child.stdin.take().unwrap().write_all(job).unwrap();
    child.wait_with_output().unwrap().stdout
}

/// The processor time of the programs that were started and have ended, in milliseconds.
fn children() -> f64 {
    let mut usage = [0; 18];
    unsafe { getrusage(-1, &mut usage) };
    (usage[0] + usage[2]) as f64 * 1e3 + (usage[1] + usage[3]) as f64 / 1e3
}

const TOLERANCES: [(f64, f64); 2] = [(1e-6, 1e-9), (1e-3, 1e-6)];

/// CVODE on the same problems, where its program was built: its time, its steps, and the errors of both at the end, the greatest
/// over the components in units of atol + rtol * |y|, against a run of the Rust at rtol 1e-11, atol 1e-14.
fn cvode(dir: &Path) {
    let driver = dir.join("cvode");
    if !driver.exists() {
        return;
    }
    println!();
    println!("{:<30} {:>5} {:>10} {:>10} {:>12} {:>10}", "CVODE", "rtol", "a run, us", "steps", "error", "our error");
    for problem in problems::all() {
        let exact = rust::patched(&problem, 1e-11, 1e-14, true).last;
        for (rtol, atol) in TOLERANCES {
            let ours = rust::patched(&problem, rtol, atol, true);
            let times = (20_000_000 / ((300 + 150 * problem.y0.len() as u64) * ours.attempts)).max(1);
            let input = [&[times][..], &problem.words(rtol, atol)].concat();
            let said: Vec<Vec<f64>> = (0..ROUNDS).map(|_| fields(&driver, &input)).collect();
            let best = said.iter().map(|s| s[0]).fold(f64::INFINITY, f64::min);
            let error = |y: &[f64]| y.iter().zip(&exact).map(|(y, e)| (y - e).abs() / (atol + rtol * e.abs())).fold(0.0, f64::max);
            println!(
                "{:<30} {rtol:>5e} {:>10.1} {:>10} {:>12.2} {:>10.2}",
                problem.what, best / times as f64 / 1e3, said[0][1], error(&said[0][2..]), error(&ours.last)
            );
        }
    }
}

fn one_run(dir: &Path, problem: &Problem, rtol: f64, atol: f64) {
    let (patched, unaltered) = (rust::patched(problem, rtol, atol, false), rust::unaltered(problem, rtol, atol, false));
    let times = (20_000_000 / ((300 + 150 * problem.y0.len() as u64) * patched.attempts)).max(1);
    let input = [&[times][..], &problem.words(rtol, atol)].concat();
    let (mut expected, mut best, mut same) = (0.0, [f64::INFINITY; 3], true);
    for _ in 0..times {
        expected += patched.sum;
    }
    let timed = |run: &dyn Fn() -> f64| {
        let start = nanoseconds();
        for _ in 0..times {
            black_box(run());
        }
        (nanoseconds() - start) as f64
    };
    for _ in 0..ROUNDS {
        let (ns, sum) = drive(&dir.join("problems"), &input);
        same &= sum.to_bits() == expected.to_bits();
        let round = [ns, timed(&|| rust::patched(problem, rtol, atol, false).sum), timed(&|| rust::unaltered(problem, rtol, atol, false).sum)];
        best = std::array::from_fn(|i| best[i].min(round[i] / times as f64));
    }
    let attempts = [patched.attempts, patched.attempts, unaltered.attempts];
    let each: [f64; 3] = std::array::from_fn(|i| best[i] / attempts[i] as f64);
    println!(
        "{:<30} {rtol:>5e} {:>8} {:>10.1}{:>10.1}{:>10.1} {:>10.1}{:>10.1}{:>10.1} {:>8.2}{:>9.2}  {}",
        problem.what, patched.attempts, best[0] / 1e3, best[1] / 1e3, best[2] / 1e3, each[0], each[1], each[2],
        best[0] / best[1], best[0] / best[2], if same { "yes" } else { "NO" }
    );
}
