//! Ordinary jobs, printed as the job program prints them, so that the Rust with the powers of docs/RULES.md and the Rust as it is
//! can be held side by side.
use crate::config::Config;
use crate::make::Honest;
use crate::random::Random;
use crate::run::run;
use crate::systems::Problem;
use ivp::methods::Tolerance;

/// `count` runs of the problems at ordinary tolerances, each after a line `job`.
pub fn jobs(count: u64, seed: u64) -> String {
    let mut random = Random::new(seed);
    let mut text = String::new();
    for _ in 0..count {
        let problem = Problem::random(&mut random);
        let mut config = Config::plain(2_000, 4, problem.x0, problem.xend, problem.y0);
        config.rtol = Tolerance::Scalar(random.decade(-8.0, -2.0));
        config.atol = Tolerance::Scalar(random.decade(-10.0, -4.0));
        if random.once_in(2) {
            config.first_step = Some((problem.xend - problem.x0) * random.decade(-4.0, -1.0));
        }
        let mut lines = String::new();
        run(&config, &mut Honest(problem.system), &mut lines);
        text += "job\n";
        lines.lines().filter(|line| !line.starts_with(['D', 'J'])).for_each(|line| {
            text += line;
            text.push('\n');
        });
    }
    text
}

/// How many jobs of two such texts agree, and in what; and how many lines come before the first that differs.
pub fn agreement(one: &str, other: &str) -> String {
    let (one, other): (Vec<&str>, Vec<&str>) = (one.split("job\n").skip(1).collect(), other.split("job\n").skip(1).collect());
    let agree = |part: fn(&str) -> Vec<&str>| one.iter().zip(&other).filter(|(a, b)| part(a) == part(b)).count();
    let before = |(a, b): (&&str, &&str)| a.lines().zip(b.lines()).take_while(|(a, b)| a == b).count();
    format!(
        "of {} jobs the same lines {}, the same counters {}, the same status {}; {} of {} lines before the first that differs\n",
        one.len(),
        agree(|job| job.lines().collect()),
        agree(|job| job.lines().last().unwrap().split(' ').skip(3).collect()),
        agree(|job| job.lines().last().unwrap().split(' ').take(2).collect()),
        one.iter().zip(&other).map(before).sum::<usize>(),
        other.iter().map(|job| job.lines().count()).sum::<usize>(),
    )
}

/// How powf stands to the exact inverse root, on ordinary numbers: for each k, and in all. The exponent -1/k is itself rounded but for
/// k 1, 2 and 4.
pub fn powers(count: u64, seed: u64) -> String {
    let mut random = Random::new(seed);
    let mut stands = [[0; 3]; 8];
    for _ in 0..count {
        let (k, x) = (random.from_to(1, 7), random.decade(-12.0, 12.0));
        let side = x.powf(-1.0 / k as f64).total_cmp(&powers::inverse_root_in_range(k, x)) as i8 + 1;
        stands[k][side as usize] += 1;
        stands[0][side as usize] += 1;
    }
    let line = |of: String, [below, equal, above]: [u64; 3]| {
        format!("of {} inverse roots{of} powf is equal in {equal}, above in {above}, below in {below}\n", below + equal + above)
    };
    (1..8).map(|k| line(format!(" of k {k}"), stands[k])).collect::<String>() + &line(String::new(), stands[0])
}
