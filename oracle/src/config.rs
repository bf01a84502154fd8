//! A run's configuration as words, and the refusals of docs/RULES.md at the beginning.
use crate::GUARDED;
use crate::words::{Stream, Unfit, hex, word, words_of};
use ivp::error::{ConfigError, Error};
use ivp::matrix::MatrixStorage;
use ivp::methods::{BDF, Tolerance};

pub struct Config {
    pub max_steps: u64,
    pub newton_maxiter: u64,
    pub x0: f64,
    pub xend: f64,
    pub max_step: Option<f64>,
    pub min_step: Option<f64>,
    pub newton_tol: Option<f64>,
    pub first_step: Option<f64>,
    pub rtol: Tolerance,
    pub atol: Tolerance,
    pub y0: Vec<f64>,
    /// 02 §8
    pub guarded: bool,
}

const SCALAR: u64 = u64::MAX;

impl Config {
    /// The Rust's defaults but for the limits, guarded as this build is.
    pub fn plain(max_steps: u64, newton_maxiter: u64, x0: f64, xend: f64, y0: Vec<f64>) -> Config {
        Config {
            max_steps,
            newton_maxiter,
            x0,
            xend,
            max_step: None,
            min_step: None,
            newton_tol: None,
            first_step: None,
            rtol: Tolerance::Scalar(1e-3),
            atol: Tolerance::Scalar(1e-6),
            y0,
            guarded: GUARDED,
        }
    }

    pub fn words(&self) -> Vec<u64> {
        let given = [self.max_step, self.min_step, self.newton_tol, self.first_step];
        let flags = (0..4).filter(|&i| given[i].is_some()).map(|i| 1 << i).sum::<u64>() | u64::from(self.guarded) << 4;
        let mut words = vec![0, self.y0.len() as u64, self.max_steps, self.newton_maxiter, flags, word(self.x0), word(self.xend)];
        words.extend(given.map(|g| g.map_or(0, word)));
        for tolerance in [&self.rtol, &self.atol] {
            match tolerance {
                Tolerance::Scalar(value) => words.extend([SCALAR, word(*value)]),
                Tolerance::Vector(values) => {
                    words.push(values.len() as u64);
                    words.extend(words_of(values));
                }
            }
        }
        words.extend(words_of(&self.y0));
        words
    }

    /// Read after the word that says the kind.
    pub fn read(stream: &mut Stream) -> Result<Config, Unfit> {
        let n = stream.count(64)?;
        let (max_steps, newton_maxiter, flags) = (stream.word()?, stream.word()?, stream.word()?);
        let (x0, xend) = (stream.double()?, stream.double()?);
        let settings = stream.doubles(4)?;
        let given = |i: usize| if flags >> i & 1 == 1 { Some(settings[i]) } else { None };
        Ok(Config {
            max_steps,
            newton_maxiter,
            x0,
            xend,
            max_step: given(0),
            min_step: given(1),
            newton_tol: given(2),
            first_step: given(3),
            rtol: read_tolerance(stream)?,
            atol: read_tolerance(stream)?,
            y0: stream.doubles(n)?,
            guarded: flags >> 4 & 1 == 1,
        })
    }

    pub fn solver(&self) -> BDF {
        BDF {
            max_steps: self.max_steps as usize,
            max_step: self.max_step,
            min_step: self.min_step,
            newton_maxiter: self.newton_maxiter as usize,
            newton_tol: self.newton_tol,
            jac_storage: MatrixStorage::Full,
            first_step: self.first_step,
        }
    }

    /// Refusals that the Rust lacks and that come before its own: 1 and 4.
    pub fn refused_before(&self) -> Option<String> {
        let n = self.y0.len();
        let short = |t: &Tolerance| matches!(t, Tolerance::Vector(values) if values.len() < n);
        if n > 32 {
            Some("R 1".into())
        } else if n > 0 && (short(&self.rtol) || short(&self.atol)) {
            Some("R 4".into())
        } else {
            None
        }
    }

    /// Whether 7 or 8 holds. The Rust has no 7, and asks twice before its 8.
    pub fn refused_late(&self) -> bool {
        self.beyond_limits() || self.first_step == Some(0.0)
    }

    fn beyond_limits(&self) -> bool {
        self.max_steps > 1_000_000 || self.newton_maxiter > 64
    }

    /// The line for what the Rust answered. 5 and 6 are its own, and go before 7; its 8 gives way to 7.
    pub fn refusal(&self, error: Error) -> String {
        match error {
            Error::Config(ConfigError::NegativeTolerance { kind, index, value }) => format!("R 5 {} {index} {}", &kind[..1], hex(value)),
            Error::Config(ConfigError::MustBePositive { .. }) => "R 6".into(),
            Error::Config(ConfigError::InvalidStepSize { .. }) if self.beyond_limits() => "R 7".into(),
            Error::Config(ConfigError::InvalidStepSize { value, expected_sign }) => format!("R 8 {} {}", hex(value), hex(expected_sign)),
            other => panic!("{other}"),
        }
    }
}

fn read_tolerance(stream: &mut Stream) -> Result<Tolerance, Unfit> {
    let count = stream.word()?;
    if count == SCALAR {
        return Ok(Tolerance::Scalar(stream.double()?));
    }
    if count > 64 {
        return Err(Unfit);
    }
    Ok(Tolerance::Vector(stream.doubles(count as usize)?))
}

/// A vector's entries from n on serve no component, but the Rust's `iter` would panic over them.
pub fn first_entries(tolerance: &Tolerance, n: usize) -> Tolerance {
    match tolerance {
        Tolerance::Vector(values) if values.len() > n => Tolerance::Vector(values[..n].to_vec()),
        other => other.clone(),
    }
}
