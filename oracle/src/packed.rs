//! The job program's packed files: what it must print for one, and files at random.
use crate::config::Config;
use crate::make::Honest;
use crate::random::Random;
use crate::run::run;
use crate::systems::System;
use crate::words::word;
use ivp::methods::Tolerance;

/// The lines of the job program for a file's bytes.
pub fn answer_job(bytes: &[u8]) -> String {
    let Some(head) = bytes.first_chunk::<5>() else { return "R 17\n".into() };
    let fields = head.iter().fold(0u64, |v, &b| v << 8 | b as u64);
    let (n, max_steps, newton_maxiter, automatic, padding) = (fields >> 34, fields >> 14 & 0xF_FFFF, fields >> 7 & 0x7F, fields >> 6 & 1, fields & 0x3F);
    if n > 32 {
        return "R 1\n".into();
    }
    let n = n as usize;
    // read as one NaN, whichever pattern the file has
    let doubles: Vec<f64> = bytes[5..].chunks_exact(8).map(|c| f64::from_bits(word(f64::from_bits(u64::from_be_bytes(c.try_into().unwrap()))))).collect();
    let unused = || automatic == 1 && doubles[2].to_bits() != 0;
    if bytes.len() != 5 + 8 * (5 + n + n * n) || padding != 0 || unused() {
        return "R 17\n".into();
    }
    let mut config = Config::plain(max_steps, newton_maxiter, doubles[0], doubles[1], doubles[5..5 + n].to_vec());
    config.first_step = (automatic == 0).then_some(doubles[2]);
    config.rtol = Tolerance::Scalar(doubles[3]);
    config.atol = Tolerance::Scalar(doubles[4]);
    // a job has no such setting
    config.guarded = false;
    let mut text = String::new();
    run(&config, &mut Honest(System::Linear { a: doubles[5 + n..].to_vec() }), &mut text);
    text.lines().filter_map(|line| job_line(line, n)).collect()
}

/// A line of a run as the job program prints it: no question, of a step the new x and y, of a refusal its number.
fn job_line(line: &str, n: usize) -> Option<String> {
    let fields: Vec<&str> = line.split(' ').collect();
    let kept = match fields[0] {
        "S" => [&[fields[0], fields[2]], &fields[5..5 + n]].concat(),
        "R" => fields[..2].to_vec(),
        "I" | "E" => fields,
        _ => return None,
    };
    Some(kept.join(" ") + "\n")
}

/// The fields of a job file.
pub struct Job {
    pub n: u64,
    pub max_steps: u64,
    pub newton_maxiter: u64,
    pub automatic: bool,
    pub padding: u64,
    /// x0, xend, first_step, the tolerances, y0, A by rows
    pub doubles: Vec<f64>,
}

impl Job {
    pub fn bytes(&self) -> Vec<u8> {
        let fields = self.n << 34 | self.max_steps << 14 | self.newton_maxiter << 7 | (self.automatic as u64) << 6 | self.padding;
        let mut bytes = fields.to_be_bytes()[3..].to_vec();
        bytes.extend(self.doubles.iter().flat_map(|x| x.to_bits().to_be_bytes()));
        bytes
    }
}

/// A job that runs: a linear system that mostly decays, at ordinary tolerances.
pub fn ordinary_job(random: &mut Random, n: usize) -> Job {
    let automatic = random.once_in(2);
    let first_step = if automatic { 0.0 } else { random.decade(-5.0, 0.0) };
    let mut doubles = vec![0.0, random.decade(-2.0, 1.0), first_step, random.decade(-8.0, -2.0), random.decade(-10.0, -3.0)];
    doubles.extend((0..n).map(|_| random.signed()));
    let decay = random.decade(-1.0, 3.0);
    doubles.extend((0..n * n).map(|i| if i / n == i % n { -decay * random.unit() } else { random.signed() }));
    Job { n: n as u64, max_steps: random.from_to(1, 200) as u64, newton_maxiter: 4, automatic, padding: 0, doubles }
}

/// A job file: mostly one that runs, at times one with numbers at the edges or at the limits.
pub fn random_job(random: &mut Random) -> Vec<u8> {
    let n = match random.below(20) {
        0 => 0,
        1 | 2 => random.from_to(6, 32),
        _ => random.from_to(1, 5),
    };
    let mut job = ordinary_job(random, n);
    let edges = random.once_in(5);
    if random.once_in(12) {
        job.max_steps = random.pick(&[0, 1_000_000, 1_000_001, 0xF_FFFF]);
    }
    if random.once_in(8) {
        job.newton_maxiter = random.pick(&[0, 1, 64, 65, 127]);
    }
    // under a limit of a million a run with numbers at the edges, or with one Newton pass, creeps on and on
    let creeps = edges || job.newton_maxiter < 2;
    if creeps && job.max_steps <= 1_000_000 {
        job.max_steps = job.max_steps.min(40);
    }
    if !job.automatic && random.once_in(15) {
        job.doubles[2] = random.edge();
    }
    for (i, x) in job.doubles.iter_mut().enumerate() {
        if edges && i != 2 && random.once_in(6) {
            *x = random.edge();
        }
    }
    job.bytes()
}

/// Jobs that docs/JOB-FORMAT.md prints or judges by its words, two that tell an infinite y, and what is printed for them.
pub fn known_jobs() -> Vec<(&'static str, Vec<u8>, &'static str)> {
    let first = |max_steps| Job { n: 1, max_steps, newton_maxiter: 4, automatic: false, padding: 0, doubles: vec![0.0, 1.0, 0.5, 1e-3, 1e-6, 1.0, 0.0] };
    let none = |padding, first_step| Job { n: 0, max_steps: 0, newton_maxiter: 127, automatic: true, padding, doubles: vec![0.0, 1.0, first_step, -1.0, -1.0] };
    let automatic = |first_step| {
        let mut job = first(1);
        job.automatic = true;
        job.doubles[2] = first_step;
        job
    };
    // 02 §8: the error norm is a NaN, since y overflows under relative tolerance 0, and the step passes. With an infinite absolute
    // tolerance the first pass converges; with 1e308 the second does, whose correction of a few last bits is what overflows
    let overflowing = |xend, atol, y0, a| Job { n: 1, max_steps: 1, newton_maxiter: 4, automatic: false, padding: 0, doubles: vec![0.0, xend, xend, 0.0, atol, y0, a] };
    vec![
        ("the first job", first(100_000).bytes(), FIRST_JOB),
        ("one step", first(1).bytes(), "I 0000000000000000 3FF0000000000000\nS 3FE0000000000000 3FF0000000000000\nE 2 3FE0000000000000 1 1 0 2 1 1 0\n"),
        ("automatic, 0", automatic(0.0).bytes(), "I 0000000000000000 3FF0000000000000\nS 3EB0C6F7A0B5ED8D 3FF0000000000000\nE 2 3EB0C6F7A0B5ED8D 1 1 0 2 1 1 1\n"),
        ("automatic, -0", automatic(-0.0).bytes(), "R 17\n"),
        ("n 0 ends, whatever else is set", none(0, 0.0).bytes(), "E 0 0000000000000000 0 0 0 0 0 0 0\n"),
        ("n 0 with padding", none(1, 0.0).bytes(), "R 17\n"),
        ("n 0 with a first step", none(0, -0.0).bytes(), "R 17\n"),
        ("n 0 and a byte more", [none(0, 0.0).bytes(), vec![0]].concat(), "R 17\n"),
        ("n 33 of five bytes", vec![33 << 2, 0, 0, 0, 0], "R 1\n"),
        ("n 33 of four bytes", vec![33 << 2, 0, 0, 0], "R 17\n"),
        ("empty", Vec::new(), "R 17\n"),
        ("an infinite y, any absolute error allowed", overflowing(1.0, f64::INFINITY, 1e308, 0.5).bytes(), "I 0000000000000000 7FE1CCF385EBC8A0\nS 3FF0000000000000 7FF0000000000000\nE 0 3FF0000000000000 1 1 0 2 1 1 0\n"),
        ("an infinite y, absolute tolerance 1e308", overflowing(1.125, 1e308, 7.742419961721948e306, 1.0).bytes(), "I 0000000000000000 7FA60D17C61DA194\nS 3FF2000000000000 7FF0000000000000\nE 0 3FF2000000000000 1 1 0 3 1 1 0\n"),
    ]
}

const FIRST_JOB: &str = "\
I 0000000000000000 3FF0000000000000
S 3FE0000000000000 3FF0000000000000
S 3FF0000000000000 3FF0000000000000
E 0 3FE0000000000000 2 2 0 3 1 1 0
";
