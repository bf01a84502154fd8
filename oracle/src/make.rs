//! Runs at random: a problem, settings and a player who replies, all from one seed, with the replies written down.
use crate::GUARDED;
use crate::brink::brink;
use crate::config::Config;
use crate::leaves::case_matrix;
use crate::random::Random;
use crate::run::{Replies, Told, run};
use crate::systems::{Problem, System};
use crate::words::{Stream, word, words_of};
use ivp::methods::Tolerance;

/// How the replies go wrong.
pub enum Manner {
    /// they do not
    Honest,
    /// derivatives as they should be; Jacobians of another system
    WrongJacobian(f64),
    /// derivatives as they should be; Jacobians of any numbers up to a size
    AnyJacobian { size: f64 },
    /// now and then a number is any double
    Faulty { once_in: usize },
    /// all numbers are any doubles
    Wild,
    /// Jacobians that make I - c J a given matrix of small whole numbers, singular at some stage: c is a power of two
    Singular { c: f64 },
    /// every step is h, and a Jacobian makes I - c J singular at one order or another
    SingularAtOrder { h: f64 },
}

/// `alpha` of the Rust, by order.
const ALPHA: [u64; 6] = [0, 0x3FF2F5C28F5C28F6, 0x3FFAAAAAAAAAAAAB, 0x3FFFBF59F9B82EF8, 0x40015BBBBBBBBBBB, 0x4002444444444444];

/// Replies from a system in some manner, and keeps the words.
struct Player<'a> {
    random: &'a mut Random,
    system: System,
    manner: Manner,
    /// once in so many numbers after the start notice: a NaN or an infinity
    nans: usize,
    started: bool,
    /// once in so many notices
    interrupts: usize,
    modifies: usize,
    xend: f64,
    words: Vec<u64>,
}

impl Player<'_> {
    /// The numbers as they are sent: spoilt by the manner, and every NaN the one pattern that a case can hold.
    fn send(&mut self, xs: &mut [f64]) {
        for x in xs.iter_mut() {
            let spoilt = match self.manner {
                Manner::Faulty { once_in } => self.random.once_in(once_in),
                Manner::Wild => true,
                _ => false,
            };
            if spoilt {
                *x = self.random.edge();
            }
            if self.started && self.random.once_in(self.nans) {
                *x = self.random.pick(&[f64::NAN, f64::NAN, f64::INFINITY, f64::NEG_INFINITY]);
            }
            *x = f64::from_bits(word(*x));
        }
        self.words.extend(words_of(xs));
    }
}

impl Replies for Player<'_> {
    fn derivative(&mut self, x: f64, y: &[f64], dydx: &mut [f64]) {
        self.system.derivative(x, y, dydx);
        self.send(dydx);
    }

    fn jacobian(&mut self, x: f64, y: &[f64], rows: &mut [f64]) {
        let n = y.len();
        self.system.jacobian(x, y, rows);
        match self.manner {
            Manner::WrongJacobian(factor) => rows.iter_mut().for_each(|e| *e *= factor),
            Manner::AnyJacobian { size } => rows.fill_with(|| size * self.random.signed()),
            Manner::Singular { c } => rows.copy_from_slice(&singular_jacobian(self.random, n, c)),
            Manner::SingularAtOrder { h } => {
                let c = h / f64::from_bits(ALPHA[self.random.from_to(1, 5)]);
                let row = self.random.below(n);
                rows[row * n + row] = inverse_of(c);
            }
            _ => {}
        }
        self.send(rows);
    }

    fn told(&mut self, x: f64, y: &[f64]) -> Told {
        self.started = true;
        if self.random.once_in(self.interrupts) {
            self.words.push(1);
            return Told::Interrupt;
        }
        if !self.random.once_in(self.modifies) {
            self.words.push(0);
            return Told::Continue;
        }
        let mut new = vec![match self.random.below(8) {
            0 => self.xend,
            1 => self.xend + (self.xend - x),
            2 => self.random.edge(),
            3 => x - 0.1 * (self.xend - x),
            _ => x,
        }];
        let edges = self.random.once_in(6);
        let scale = if self.random.once_in(4) { self.random.pick(&[1.0, -1.0]) } else { self.random.signed() };
        new.extend(y.iter().map(|&v| if edges { self.random.edge() } else { v * scale }));
        self.words.push(2);
        self.send(&mut new);
        Told::Modified(new[0], new[1..].to_vec())
    }
}

/// A system that replies as it should and always continues.
pub struct Honest(pub System);

impl Replies for Honest {
    fn derivative(&mut self, x: f64, y: &[f64], dydx: &mut [f64]) {
        self.0.derivative(x, y, dydx);
    }

    fn jacobian(&mut self, x: f64, y: &[f64], rows: &mut [f64]) {
        self.0.jacobian(x, y, rows);
    }

    fn told(&mut self, _: f64, _: &[f64]) -> Told {
        Told::Continue
    }
}

/// The words of an honest run.
pub fn record(config: &Config, system: System) -> Vec<u64> {
    let random = &mut Random::new(0);
    let words = config.words();
    let never = usize::MAX;
    let xend = config.xend;
    let mut player = Player { random, system, manner: Manner::Honest, nans: never, started: false, interrupts: never, modifies: never, xend, words };
    run(config, &mut player, &mut String::new());
    player.words
}

/// J with I - c J = M for a matrix M of whole numbers: exact, since c is a power of two.
fn singular_jacobian(random: &mut Random, n: usize, c: f64) -> Vec<f64> {
    let mut m = case_matrix(random, n);
    if random.once_in(2) {
        // singular now, and again after each of several halvings of c
        m = (0..n * n).map(|i| if i / n == i % n { 1.0 - 2f64.powi((i / n % 8) as i32) } else { 0.0 }).collect();
    }
    (0..n * n).map(|i| (if i / n == i % n { 1.0 } else { 0.0 } - m[i]) / c).collect()
}

/// The number j with -c * j + 1 = 0 in doubles, or one close to it.
fn inverse_of(c: f64) -> f64 {
    let j = 1.0 / c;
    [j, j.next_up(), j.next_down()].into_iter().find(|&j| -c * j + 1.0 == 0.0).unwrap_or(j)
}

/// The words of a run, with its replies. Guarded runs are more often those for which the setting is made.
pub fn case_run(random: &mut Random) -> Vec<u64> {
    let at_brink = if GUARDED { !random.once_in(3) } else { random.once_in(12) };
    let (mut config, system, manner) = if at_brink { brink(random) } else { anywhere(random) };
    bound_size(random, &mut config);
    let words = config.words();
    // as it will be read: a NaN here may be signalling, and a case's never is
    let Ok(config) = Config::read(&mut Stream::of_words(words[1..].to_vec())) else { unreachable!() };
    let mut player = Player {
        system,
        manner,
        nans: if random.once_in(if at_brink { 6 } else { 40 }) { random.pick(&[10, 60]) } else { usize::MAX },
        started: false,
        interrupts: random.pick(&[30, 200, 1000]),
        modifies: random.pick(&[8, 100, 1000]),
        xend: config.xend,
        words,
        random,
    };
    run(&config, &mut player, &mut String::new());
    player.words
}

/// A problem from its natural beginning, settings that may be odd, and replies that may go wrong.
fn anywhere(random: &mut Random) -> (Config, System, Manner) {
    let mut problem = Problem::random(random);
    let mut config = Config::plain(0, 4, problem.x0, problem.xend, problem.y0);
    ordinary_settings(random, &mut config);
    let mut manner = Manner::Honest;
    match random.below(12) {
        0..=4 => {}
        5 | 6 => odd_settings(random, &mut config),
        7 => manner = Manner::WrongJacobian(random.pick(&[0.0, -1.0, 0.5, 2.0, 100.0])),
        8 => manner = Manner::Faulty { once_in: random.pick(&[3, 20, 100]) },
        9 => {
            manner = Manner::Wild;
            if random.once_in(2) {
                odd_settings(random, &mut config);
            }
        }
        10 if random.once_in(2) => manner = singular_settings(random, &mut config),
        10 => {
            let h = random.decade(-3.0, 3.0);
            steady_settings(random, &mut config, h);
            problem.system = System::Linear { a: vec![0.0; config.y0.len().pow(2)] };
            manner = Manner::SingularAtOrder { h };
        }
        _ => refused_settings(random, &mut config),
    }
    (config, problem.system, manner)
}

fn ordinary_settings(random: &mut Random, config: &mut Config) {
    let n = config.y0.len();
    let (relative, absolute) = (random.decade(-9.0, -1.0), random.decade(-12.0, -2.0));
    config.rtol = tolerance(random, n, relative);
    config.atol = tolerance(random, n, absolute);
    let span = (config.xend - config.x0).abs();
    if random.once_in(2) {
        config.first_step = Some(span * random.decade(-6.0, 0.0) * random.pick(&[1.0, 1.0, -1.0]));
    }
    if random.once_in(4) {
        config.max_step = Some(span * random.decade(-2.0, 0.0));
    }
    if random.once_in(6) {
        config.min_step = Some(span * random.decade(-6.0, -2.0));
    }
    if random.once_in(6) {
        config.newton_tol = Some(random.decade(-6.0, 0.0));
    }
    config.newton_maxiter = random.pick(&[4, 4, 4, 3, 6, 1, 2, 0, 10]);
    config.max_steps = random.pick(&[60, 60, 60, 30, 40, 200, 10, 3, 1]);
}

/// One number for all, or a vector; at times one longer than the state.
fn tolerance(random: &mut Random, n: usize, value: f64) -> Tolerance {
    match random.below(4) {
        0 => {
            let length = if random.once_in(4) { n + random.below(3) } else { n };
            Tolerance::Vector((0..length).map(|_| value * random.decade(-1.0, 1.0)).collect())
        }
        _ => Tolerance::Scalar(value),
    }
}

/// Settings and beginnings that no one would choose.
fn odd_settings(random: &mut Random, config: &mut Config) {
    let odd = |random: &mut Random| match random.below(3) {
        0 => random.edge(),
        1 => random.pick(&[0.0, -0.0, 1.0, -1.0, 0.5, f64::NAN, f64::INFINITY, 1e-300, 1e300]),
        _ => random.signed() * random.decade(-3.0, 3.0),
    };
    for _ in 0..random.from_to(1, 4) {
        match random.below(9) {
            0 => config.max_step = Some(odd(random)),
            1 => config.min_step = Some(odd(random)),
            2 => config.newton_tol = Some(odd(random)),
            3 => config.first_step = Some(odd(random)).filter(|&h| h != 0.0),
            4 => config.x0 = odd(random),
            5 => config.xend = odd(random),
            6 => config.xend = config.x0,
            7 => odd_tolerances(random, config),
            _ => config.y0.iter_mut().for_each(|y| if random.once_in(2) { *y = odd(random) }),
        }
    }
    if random.once_in(4) {
        config.newton_maxiter = random.pick(&[0, 1, 63, 64]);
    }
    config.max_steps = config.max_steps.min(60);
}

fn odd_tolerances(random: &mut Random, config: &mut Config) {
    let odd = [0.0, -0.0, f64::NAN, f64::INFINITY, 1e-300, 1e300, 1.0];
    let n = config.y0.len();
    for tolerance in [&mut config.rtol, &mut config.atol] {
        *tolerance = match random.below(3) {
            0 => continue,
            1 => Tolerance::Scalar(random.pick(&odd)),
            _ => Tolerance::Vector((0..n).map(|_| random.pick(&odd)).collect()),
        };
    }
}

/// Steps of h, as far as the run may go.
fn steady_settings(random: &mut Random, config: &mut Config, h: f64) {
    config.first_step = Some(h);
    config.max_step = Some(h);
    config.min_step = None;
    config.xend = config.x0 + h * random.from_to(30, 50) as f64;
    config.max_steps = 60;
}

/// A first step that makes c = h / alpha a power of two at order 1.
fn singular_settings(random: &mut Random, config: &mut Config) -> Manner {
    let c = 2f64.powi(random.below(8) as i32 - 4);
    config.first_step = Some(f64::from_bits(ALPHA[1]) * c);
    config.xend = config.x0 + 100.0 * c * random.pick(&[1.0, -1.0]);
    config.max_step = None;
    config.min_step = None;
    Manner::Singular { c: if config.xend < config.x0 { -c } else { c } }
}

/// One cause of a refusal at the beginning, or several, for their order; also n = 0, which comes before them.
fn refused_settings(random: &mut Random, config: &mut Config) {
    for _ in 0..random.from_to(1, 3) {
        let n = config.y0.len();
        let below = random.pick(&[-1.0, -1e-300, -f64::from_bits(1), f64::NEG_INFINITY]);
        match random.below(10) {
            0 => config.y0 = vec![1.0; random.pick(&[33, 34, 64])],
            1 => config.y0 = Vec::new(),
            2 => config.rtol = Tolerance::Vector(vec![1e-3; n.saturating_sub(random.from_to(1, 2))]),
            3 => config.atol = Tolerance::Vector(vec![1e-3; n.saturating_sub(random.from_to(1, 2))]),
            4 => config.rtol = with_one_below(random, n, below),
            5 => config.atol = with_one_below(random, n, below),
            6 => config.max_steps = 0,
            7 => config.max_steps = random.pick(&[1_000_001, u64::MAX]),
            8 => config.newton_maxiter = random.pick(&[65, 66, 1 << 63]),
            _ => config.first_step = Some(random.pick(&[0.0, -0.0])),
        }
    }
    if random.once_in(3) {
        config.xend = random.pick(&[config.x0, -1.0, f64::NAN]);
    }
}

fn with_one_below(random: &mut Random, n: usize, below: f64) -> Tolerance {
    if n == 0 || random.once_in(3) {
        return Tolerance::Scalar(below);
    }
    // one entry more than there are components: no component has it, and it refuses nothing
    let length = (n + 1).min(64);
    let mut values = vec![1e-3; length];
    values[random.below(length)] = below;
    Tolerance::Vector(values)
}

/// Keeps a run's words near two thousand, at times ten times that.
fn bound_size(random: &mut Random, config: &mut Config) {
    let n = config.y0.len() as u64;
    let most = if random.once_in(40) { 20_000 } else { 2_000 };
    let attempt = n * (config.newton_maxiter.clamp(1, 64) + n) + 1;
    if config.max_steps <= 1_000_000 {
        config.max_steps = config.max_steps.min((most / attempt).max(2));
    }
}
