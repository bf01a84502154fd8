//! Job files that are damaged, in every way that docs/JOB-FORMAT.md refuses, and some that only look it.
use crate::packed::{Job, ordinary_job};
use crate::random::Random;

/// What was done to a good file, and its bytes now.
pub fn damaged_job(random: &mut Random) -> (&'static str, Vec<u8>) {
    let n = match random.below(10) {
        0 => 0,
        1 => random.from_to(6, 32),
        _ => random.from_to(1, 5),
    };
    let mut job = ordinary_job(random, n);
    job.max_steps = random.from_to(1, 60) as u64;
    if random.once_in(2) { damaged_bytes(random, job.bytes()) } else { damaged_fields(random, job) }
}

fn damaged_bytes(random: &mut Random, bytes: Vec<u8>) -> (&'static str, Vec<u8>) {
    let length = bytes.len();
    match random.below(8) {
        0 => ("empty", Vec::new()),
        1 => ("shorter than its head", cut(bytes, random.below(5))),
        2 => ("cut", cut(bytes, random.from_to(5, length - 1))),
        3 => ("cut between numbers", cut(bytes, 5 + 8 * random.below(length / 8))),
        4 => ("longer", longer(random, bytes)),
        5 => ("a bit of the head flipped", flipped(random, bytes, 40)),
        6 => ("any bit flipped", flipped(random, bytes, 8 * length)),
        _ => {
            let length = random.below(700);
            ("any bytes", (0..length).map(|_| random.bits() as u8).collect())
        }
    }
}

fn damaged_fields(random: &mut Random, mut job: Job) -> (&'static str, Vec<u8>) {
    match random.below(6) {
        0 => {
            job.padding = random.from_to(1, 63) as u64;
            ("padding set", job.bytes())
        }
        1 => ("n above 32", above_32(random, job)),
        2 => {
            job.n = random.below(33) as u64;
            ("another n", job.bytes())
        }
        3 => {
            job.automatic = true;
            job.doubles[2] = if random.once_in(4) { -0.0 } else { random.edge() };
            ("automatic with a first step", job.bytes())
        }
        4 => {
            unfit_settings(random, &mut job);
            ("unfit settings", job.bytes())
        }
        _ => ("several at once", several(random, job)),
    }
}

fn cut(mut bytes: Vec<u8>, length: usize) -> Vec<u8> {
    bytes.truncate(length);
    bytes
}

fn longer(random: &mut Random, mut bytes: Vec<u8>) -> Vec<u8> {
    let any = random.from_to(1, 64);
    let more = random.pick(&[1, 7, 8, 16, any, 9_000]);
    bytes.extend((0..more).map(|_| random.bits() as u8));
    bytes
}

/// One of the first bits, most significant first.
fn flipped(random: &mut Random, mut bytes: Vec<u8>, first: usize) -> Vec<u8> {
    let bit = random.below(first);
    bytes[bit / 8] ^= 0x80 >> (bit % 8);
    bytes
}

/// Number 1 comes before the length: so the length is now the old one, now the one that this n would have.
fn above_32(random: &mut Random, mut job: Job) -> Vec<u8> {
    let n = random.from_to(33, 63);
    job.n = n as u64;
    if random.once_in(2) {
        job.doubles = vec![0.5; 5 + n + n * n];
    }
    if random.once_in(4) {
        job.padding = 1;
    }
    let bytes = job.bytes();
    if random.once_in(4) { cut(bytes, 5) } else { bytes }
}

/// What the beginning refuses by 5 to 8, one or more of them.
fn unfit_settings(random: &mut Random, job: &mut Job) {
    for _ in 0..random.from_to(1, 3) {
        let below = random.pick(&[-1.0, -f64::from_bits(1), f64::NEG_INFINITY]);
        match random.below(6) {
            0 => job.max_steps = 0,
            1 => job.max_steps = random.pick(&[1_000_001, 0xF_FFFF]),
            2 => job.newton_maxiter = random.from_to(65, 127) as u64,
            3 => job.doubles[3] = below,
            4 => job.doubles[4] = below,
            _ => {
                job.automatic = false;
                job.doubles[2] = random.pick(&[0.0, -0.0]);
            }
        }
    }
}

/// Several damages in one file: which number is given goes by the order of checking.
fn several(random: &mut Random, mut job: Job) -> Vec<u8> {
    if random.once_in(2) {
        job.padding = random.below(64) as u64;
    }
    if random.once_in(3) {
        job.n = random.from_to(0, 63) as u64;
    }
    if random.once_in(3) {
        job.automatic = true;
        job.doubles[2] = random.pick(&[-0.0, 0.0, 1.0]);
    }
    if random.once_in(2) {
        unfit_settings(random, &mut job);
    }
    let bytes = job.bytes();
    match random.below(4) {
        0 => cut(bytes, random.below(12)),
        1 => longer(random, bytes),
        _ => bytes,
    }
}
