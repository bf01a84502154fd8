//! The Rust's own ways that docs/DIFFERENCES.md lists, each by the smallest input found that shows it, and the guarded rule beside the
//! way that it amends. All are n 1.
use crate::GUARDED;
use crate::config::Config;
use crate::known::Known;
use crate::run::{Replies, Told, run};
use crate::words::{word, words_of};
use ivp::methods::Tolerance;

/// y' = slope y with a Jacobian that may be another's, and what is said to the first notices; keeps the words.
struct Scripted {
    slope: f64,
    jacobian: f64,
    /// y' is the one number before this x instead, and the other from there on
    turn: Option<(f64, f64, f64)>,
    told: Vec<Told>,
    words: Vec<u64>,
}

impl Replies for Scripted {
    fn derivative(&mut self, x: f64, y: &[f64], dydx: &mut [f64]) {
        dydx[0] = match self.turn {
            Some((turn, before, _)) if x < turn => before,
            Some((_, _, after)) => after,
            None => 0.0 + self.slope * y[0],
        };
        self.words.extend(words_of(dydx));
    }

    fn jacobian(&mut self, _: f64, _: &[f64], rows: &mut [f64]) {
        rows[0] = self.jacobian;
        self.words.extend(words_of(rows));
    }

    fn told(&mut self, _: f64, _: &[f64]) -> Told {
        let told = if self.told.is_empty() { Told::Continue } else { self.told.remove(0) };
        match &told {
            Told::Continue => self.words.push(0),
            Told::Interrupt => self.words.push(1),
            Told::Modified(x, y) => {
                self.words.extend([2, word(*x)]);
                self.words.extend(words_of(y));
            }
        }
        told
    }
}

fn played(config: &Config, mut replies: Scripted) -> Vec<u64> {
    replies.words = config.words();
    run(config, &mut replies, &mut String::new());
    replies.words
}

fn linear(config: &Config, slope: f64) -> Vec<u64> {
    played(config, Scripted { slope, jacobian: slope, turn: None, told: Vec::new(), words: Vec::new() })
}

/// y0 = 1 from 0 to 1 by a first step of one half, so many attempts.
fn half(max_steps: u64) -> Config {
    let mut config = Config::plain(max_steps, 4, 0.0, 1.0, vec![1.0]);
    config.first_step = Some(0.5);
    config
}

pub fn ways() -> Vec<Known> {
    [ends(), factoring(), stagnation(), modified(), rounding(), newton_tolerances(), steps(), order()].into_iter().flatten().collect()
}

/// The last step is current_h * (left / h): one ulp short of 0.9, and one beyond 1.3.
fn ends() -> Vec<Known> {
    let still = |xend, first_step| {
        let mut config = half(10);
        config.xend = xend;
        config.first_step = Some(first_step);
        linear(&config, 0.0)
    };
    let nowhere = |xend, first_step| {
        let mut config = half(9);
        config.xend = xend;
        config.first_step = first_step;
        linear(&config, 0.0)
    };
    vec![
        Known {
            words: still(0.9, 0.1),
            text: "+S 3FC9999999999998 3FECCCCCCCCCCCCC 3FC999999999999A 3FE6666666666666 3FF0000000000000 3FF0000000000000 0000000000000000 0000000000000000 0000000000000000 0000000000000000 0000000000000000 4000000000000000\nE 3 3CA0000000000000 3 3 0 4 2 2 0\n",
        },
        Known {
            words: still(1.3, 0.3),
            text: "+S 3FE3333333333334 3FF4CCCCCCCCCCCE 3FE3333333333333 3FE6666666666668 3FF0000000000000 3FF0000000000000 0000000000000000 0000000000000000 0000000000000000 0000000000000000 0000000000000000 4000000000000000\nE 0 3FE6666666666668 3 3 0 4 2 2 0\n",
        },
        // from +0 to -0 the direction is -1, and h is -0
        Known { words: nowhere(-0.0, Some(0.5)), text: "+E 3 8000000000000000 0 0 0 1 1 0 0\n" },
        Known { words: nowhere(-0.0, None), text: "+E 3 8000000000000000 0 0 0 1 1 0 1\n" },
        Known { words: nowhere(0.0, Some(0.5)), text: "+E 3 0000000000000000 0 0 0 1 1 0 0\n" },
    ]
}

/// Two attempts rejected for their error and one factoring, since c moved by less than 0.1; two where it moved by more.
fn factoring() -> Vec<Known> {
    let decay = |first_step| {
        let mut config = half(2);
        config.first_step = Some(first_step);
        config.rtol = Tolerance::Scalar(1e-6);
        linear(&config, -1.0)
    };
    vec![
        Known { words: decay(0.05), text: "+E 2 3F60624DD2F1A9FD 2 0 2 7 1 1 0\n" },
        Known { words: decay(0.2), text: "+E 2 3F80624DD2F1A9FD 2 0 2 5 1 2 0\n" },
    ]
}

/// The test against stagnation adds 0.1 |h| whichever way the run goes, and the limit of steps is asked before the smallest step.
fn stagnation() -> Vec<Known> {
    let ulps = |x0: f64| {
        let mut config = half(3);
        config.x0 = x0;
        config.xend = x0 * (1.0 - 6.0 * 2f64.powi(-53));
        config.first_step = Some(6.0 * 2f64.powi(-53));
        linear(&config, 0.0)
    };
    // c is 2^-1022, so that 1 - c J is 0; halved, the step is below the smallest normal number
    let singular = |max_steps| {
        let mut config = half(max_steps);
        config.y0 = vec![0.0];
        config.first_step = Some(f64::from_bits(0x0012_F5C2_8F5C_28F6));
        linear(&config, 2f64.powi(1022))
    };
    vec![
        Known { words: ulps(1.0), text: "+E 3 BCC8000000000000 0 0 0 1 1 0 0\n" },
        Known { words: ulps(-1.0), text: "+E 0 3CC8000000000000 1 1 0 2 1 1 0\n" },
        Known { words: singular(1), text: "+E 2 00097AE147AE147B 1 0 1 1 1 1 0\n" },
        Known { words: singular(2), text: "+E 3 00097AE147AE147B 1 0 1 1 1 1 0\n" },
    ]
}

/// A modified step asks twice before Success; a start that is modified beyond xend goes on from there.
fn modified() -> Vec<Known> {
    let whole = |told| {
        let mut config = half(9);
        config.first_step = Some(1.0);
        played(&config, Scripted { slope: 0.0, jacobian: 0.0, turn: None, told, words: Vec::new() })
    };
    vec![
        Known {
            words: whole(vec![Told::Continue, Told::Modified(1.0, vec![2.0])]),
            text: "+D 3FF0000000000000 4000000000000000\nJ 3FF0000000000000 4000000000000000\nE 0 3FF0000000000000 1 1 0 3 2 1 0\n",
        },
        Known {
            words: whole(vec![Told::Modified(2.0, vec![1.0])]),
            text: "+D 4000000000000000 3FF0000000000000\nJ 4000000000000000 3FF0000000000000\nD 4008000000000000 3FF0000000000000\nS 4000000000000000 4008000000000000 4000000000000000 3FF0000000000000 3FF0000000000000 3FF0000000000000 0000000000000000 0000000000000000 0000000000000000 0000000000000000 0000000000000000 3FF0000000000000\nE 0 3FF0000000000000 1 1 0 3 2 1 0\n",
        },
    ]
}

/// Zeros, the new y beside D[0], the reported old x beside the true start.
fn rounding() -> Vec<Known> {
    let mut backward = half(1);
    backward.xend = -1.0;
    backward.y0 = vec![-0.0];
    let mut nineteenth = half(1);
    nineteenth.first_step = Some(1.0 / 19.0);
    let mut tenths = half(1);
    tenths.x0 = 0.1;
    tenths.first_step = Some(0.2);
    vec![
        // y0 is -0 and D[1] is -0: the prediction that is asked about is +0
        Known {
            words: linear(&backward, 0.0),
            text: "+I 0000000000000000 8000000000000000\nD BFE0000000000000 0000000000000000\nS 0000000000000000 BFE0000000000000 0000000000000000 BFE0000000000000 0000000000000000 0000000000000000 0000000000000000 0000000000000000 0000000000000000 0000000000000000 0000000000000000 3FF0000000000000\nE 2 BFE0000000000000 1 1 0 2 1 1 0\n",
        },
        // y is 3FEE632D73ABBCB9, D[0] one ulp less
        Known {
            words: linear(&nineteenth, -1.0),
            text: "+S 0000000000000000 3FAAF286BCA1AF28 0000000000000000 3FAAF286BCA1AF28 3FEE632D73ABBCB9 3FEE632D73ABBCB8 BFA9CD28C5443479 0000000000000000 0000000000000000 0000000000000000 0000000000000000 3FF0000000000000\nE 2 3FAAF286BCA1AF28 1 1 0 3 1 1 0\n",
        },
        // the old x is told as 3FB999999999999C, two ulps above the start
        Known {
            words: linear(&tenths, 0.0),
            text: "+S 3FB999999999999C 3FD3333333333334 3FB999999999999A 3FC999999999999A 3FF0000000000000 3FF0000000000000 0000000000000000 0000000000000000 0000000000000000 0000000000000000 0000000000000000 3FF0000000000000\nE 2 3FC999999999999A 1 1 0 2 1 1 0\n",
        },
    ]
}

/// Newton's failure asks its Jacobian at the prediction. Newton's tolerance: 10 where the relative one is 0, 1e-9 where it is given at or below 0, none where it is a NaN.
fn newton_tolerances() -> Vec<Known> {
    let passes = |rtol, newton_tol, newton_maxiter| {
        let mut config = half(1);
        config.rtol = Tolerance::Scalar(rtol);
        config.atol = Tolerance::Scalar(1.0);
        config.newton_tol = newton_tol;
        config.newton_maxiter = newton_maxiter;
        played(&config, Scripted { slope: -1.0, jacobian: 0.0, turn: None, told: Vec::new(), words: Vec::new() })
    };
    let nan = |rtol, newton_tol| {
        let mut config = half(1);
        config.rtol = Tolerance::Scalar(rtol);
        config.newton_tol = newton_tol;
        config.newton_maxiter = 2;
        linear(&config, -1.0)
    };
    let mut one_pass = half(1);
    one_pass.newton_maxiter = 1;
    let (two, many) = ("+E 2 3FE0000000000000 1 1 0 3 1 1 0\n", "+E 2 3FE0000000000000 1 1 0 24 1 1 0\n");
    let failed = "+J 3FE0000000000000 3FE0000000000000\nE 2 3FD0000000000000 1 0 1 3 2 1 0\n";
    vec![
        Known { words: linear(&one_pass, -1.0), text: "+J 3FE0000000000000 3FE0000000000000\nE 2 3FD0000000000000 1 0 1 2 2 1 0\n" },
        Known { words: passes(0.0, None, 4), text: two },
        Known { words: passes(0.0, Some(10.0), 4), text: two },
        Known { words: passes(0.0, Some(0.03), 4), text: "+E 2 3FE0000000000000 1 1 0 4 1 1 0\n" },
        Known { words: passes(1e-3, Some(-1.0), 40), text: many },
        Known { words: passes(1e-3, Some(0.0), 40), text: many },
        Known { words: passes(1e-3, Some(1e-9), 40), text: many },
        Known { words: passes(1e-3, Some(1e-3), 40), text: "+E 2 3FE0000000000000 1 1 0 8 1 1 0\n" },
        Known { words: nan(1e-3, Some(f64::NAN)), text: failed },
        // its tolerance would be 0.03, but every norm is a NaN
        Known { words: nan(f64::NAN, None), text: failed },
        Known { words: nan(1e-3, None), text: "+E 2 3FB999999999999A 1 0 1 3 1 1 0\n" },
    ]
}

/// Steps and limits of steps that are NaN, 0 or the wrong way about; a start whose scale is 0; a vector that is too long.
fn steps() -> Vec<Known> {
    let with = |max_step, min_step, first_step, max_steps| {
        let mut config = half(max_steps);
        config.max_step = max_step;
        config.min_step = min_step;
        config.first_step = first_step;
        linear(&config, 0.0)
    };
    let mut scale_0 = half(1);
    scale_0.first_step = None;
    scale_0.y0 = vec![0.0];
    scale_0.atol = Tolerance::Scalar(0.0);
    let mut long = half(1);
    long.rtol = Tolerance::Vector(vec![1e-3, -1.0]);
    vec![
        // as the greatest step: one step to the end
        Known { words: with(None, None, Some(f64::NAN), 9), text: "+E 0 3FF0000000000000 1 1 0 2 1 1 0\n" },
        // 2^-1022
        Known { words: with(Some(f64::NAN), None, Some(0.5), 1), text: "+E 2 0010000000000000 1 1 0 2 1 1 0\n" },
        // rescaled by 0 and then by infinity: the prediction is a NaN
        Known {
            words: with(Some(0.0), Some(0.5), Some(0.5), 1),
            text: "+D 3FE0000000000000 7FF8000000000000\nJ 3FE0000000000000 7FF8000000000000\nE 2 3FD0000000000000 1 0 1 5 2 1 0\n",
        },
        // rescaled twice an attempt, so factored at each, and the steps are the lower limit's
        Known { words: with(Some(0.25), Some(0.5), Some(0.25), 9), text: "+E 0 3FE0000000000000 2 2 0 3 1 2 0\n" },
        Known {
            words: linear(&scale_0, -1.0),
            text: "D 0000000000000000 0000000000000000\nJ 0000000000000000 0000000000000000\nD 7FF8000000000000 7FF8000000000000\nI 0000000000000000 0000000000000000\nD 3FF0000000000000 0000000000000000\nS 0000000000000000 3FF0000000000000 0000000000000000 3FF0000000000000 0000000000000000 0000000000000000 0000000000000000 0000000000000000 0000000000000000 0000000000000000 0000000000000000 3FF0000000000000\nE 0 3FF0000000000000 1 1 0 2 1 1 1\n",
        },
        // a second entry, below 0, that no component has: docs/RULES.md lets it stand, the Rust would panic
        Known { words: linear(&long, 0.0), text: "+E 2 3FE0000000000000 1 1 0 2 1 1 0\n" },
    ]
}

/// A NaN wins the order's choice; and after a change of order the Jacobian is asked at y, not at D[0].
fn order() -> Vec<Known> {
    let mut brink = half(9);
    brink.xend = 40.0;
    brink.y0 = vec![f64::MAX];
    brink.first_step = Some(1.0);
    brink.max_step = Some(1.0);
    brink.rtol = Tolerance::Scalar(0.0);
    brink.atol = Tolerance::Scalar(1e308);
    let mut eighth = half(2);
    eighth.first_step = Some(0.125);
    eighth.rtol = Tolerance::Scalar(0.1);
    eighth.atol = Tolerance::Scalar(0.1);
    vec![
        // the factors are 0, NaN, NaN: the order rises to 2, and the step's factor is 0
        Known { words: turning(&brink, (1.5, 0.0, 1e308)), text: "+J 4000000000000000 7FF0000000000000\nE 3 0000000000000000 2 2 0 4 2 1 0\n" },
        Known { words: linear(&eighth, -1.0), text: "+J 3FD0000000000000 3FE9299AE38D5FA4\nE 2 3FF4000000000000 2 2 0 5 2 1 0\n" },
    ]
}

/// 02 §8: a NaN error norm, unguarded a pass, guarded an error rejection of factor 0.5. The texts stand in that order; the last two
/// runs meet none.
pub fn nan_errors() -> Vec<Known> {
    let one = |unguarded, guarded| if GUARDED { guarded } else { unguarded };
    // y' = 0 before the turn, and 1e308 from there on
    let overflowing = |config: &Config, turn| turning(config, (turn, 0.0, 1e308));
    let mut far = largest(9);
    far.x0 = 2f64.powi(48);
    far.xend = far.x0 + 1.0;
    let mut short = largest(2);
    short.first_step = Some(0.05);
    let mut again = largest(9);
    again.y0 = vec![1e308];
    again.atol = Tolerance::Scalar(1e308);
    let mut second = largest(9);
    second.y0 = vec![1.4e308];
    second.xend = 3.0;
    second.max_step = Some(1.0);
    second.atol = Tolerance::Scalar(1e308);
    let mut least = largest(1);
    least.y0 = vec![f64::from_bits(1)];
    least.rtol = Tolerance::Scalar(f64::INFINITY);
    let mut relative = largest(9);
    relative.rtol = Tolerance::Scalar(1e-3);
    vec![
        Known { words: overflowing(&largest(1), 0.5), text: one(INFINITE, REJECTED) },
        // it creeps up to the turn
        Known { words: overflowing(&largest(9), 0.5), text: one(INFINITE, "+E 2 3FA0000000000000 9 4 5 15 1 4 0\n") },
        // far from 0 two halvings are the last
        Known {
            words: overflowing(&far, far.x0 + 0.0625),
            text: one("+E 0 3FF0000000000000 1 1 0 3 1 1 0\n", "+E 3 3FD0000000000000 2 0 2 5 1 2 0\n"),
        },
        // c moved by less than 0.1: two rejections and one factoring
        Known {
            words: overflowing(&short, 0.01),
            text: one("+J 3FB999999999999A 7FF0000000000000\nE 2 3F9999999999999A 2 1 1 7 2 1 0\n", "+E 2 3F8999999999999A 2 0 2 5 1 1 0\n"),
        },
        // half the step does not overflow, and the end is reached
        Known { words: overflowing(&again, 1.0), text: one("+E 0 3FF0000000000000 1 1 0 3 1 1 0\n", REJECTED_ONCE) },
        // at order 2, with differences to be rescaled
        Known { words: turning(&second, (2.75, 2f64.powi(1000), 1e308)), text: one(INFINITE_AT_ORDER_2, REJECTED_AT_ORDER_2) },
        // y vanishes, and the relative tolerance is infinite
        Known {
            words: linear(&least, -2.0),
            text: one(
                "+S 0000000000000000 3FF0000000000000 0000000000000000 3FF0000000000000 0000000000000000 0000000000000000 8000000000000001 0000000000000000 0000000000000000 0000000000000000 0000000000000000 3FF0000000000000\nE 0 3FF0000000000000 1 1 0 2 1 1 0\n",
                "+D 3FF0000000000000 8000000000000001\nE 2 3FE0000000000000 1 0 1 2 1 1 0\n",
            ),
        },
        // under a relative tolerance above 0 the scale of an infinite y is infinite, and the norm 0: no NaN, and guarded too it passes
        Known { words: overflowing(&relative, 0.5), text: INFINITE },
        Known { words: linear(&half(9), -1.0), text: "+E 2 3FC9844D78B376F1 9 7 2 19 3 4 0\n" },
    ]
}

/// y0 the largest double, from 0 to 1 by a first step of 1, relative tolerance 0.
fn largest(max_steps: u64) -> Config {
    let mut config = half(max_steps);
    config.y0 = vec![f64::MAX];
    config.first_step = Some(1.0);
    config.rtol = Tolerance::Scalar(0.0);
    config
}

fn turning(config: &Config, turn: (f64, f64, f64)) -> Vec<u64> {
    played(config, Scripted { slope: 0.0, jacobian: 0.0, turn: Some(turn), told: Vec::new(), words: Vec::new() })
}

const INFINITE: &str = "\
D 0000000000000000 7FEFFFFFFFFFFFFF
J 0000000000000000 7FEFFFFFFFFFFFFF
I 0000000000000000 7FEFFFFFFFFFFFFF
D 3FF0000000000000 7FEFFFFFFFFFFFFF
D 3FF0000000000000 7FF0000000000000
S 0000000000000000 3FF0000000000000 0000000000000000 3FF0000000000000 7FF0000000000000 7FF0000000000000 7FDE0B0E966A4D34 0000000000000000 0000000000000000 0000000000000000 0000000000000000 3FF0000000000000
E 0 3FF0000000000000 1 1 0 3 1 1 0
";

const REJECTED: &str = "\
D 0000000000000000 7FEFFFFFFFFFFFFF
J 0000000000000000 7FEFFFFFFFFFFFFF
I 0000000000000000 7FEFFFFFFFFFFFFF
D 3FF0000000000000 7FEFFFFFFFFFFFFF
D 3FF0000000000000 7FF0000000000000
E 2 3FE0000000000000 1 0 1 3 1 1 0
";

const REJECTED_ONCE: &str = "\
D 0000000000000000 7FE1CCF385EBC8A0
J 0000000000000000 7FE1CCF385EBC8A0
I 0000000000000000 7FE1CCF385EBC8A0
D 3FF0000000000000 7FE1CCF385EBC8A0
D 3FF0000000000000 7FF0000000000000
D 3FE0000000000000 7FE1CCF385EBC8A0
S 0000000000000000 3FE0000000000000 0000000000000000 3FE0000000000000 7FE1CCF385EBC8A0 7FE1CCF385EBC8A0 0000000000000000 0000000000000000 0000000000000000 0000000000000000 0000000000000000 3FF0000000000000
D 3FF0000000000000 7FE1CCF385EBC8A0
D 3FF0000000000000 7FE94FB72B865BED
S 3FE0000000000000 3FF0000000000000 3FE0000000000000 3FE0000000000000 7FE94FB72B865BED 7FE94FB72B865BED 7FCE0B0E966A4D34 0000000000000000 0000000000000000 0000000000000000 0000000000000000 3FF0000000000000
E 0 3FE0000000000000 3 2 1 6 1 2 0
";

const INFINITE_AT_ORDER_2: &str = "\
+J 4000000000000000 7FE8EBBB9516E5AD
D 4008000000000000 7FE8EBBBB516E5AD
D 4008000000000000 7FF0000000000000
S 4000000000000000 4008000000000000 4000000000000000 3FF0000000000000 7FF0000000000000 7FF0000000000000 7FD55C57871AF0C0 7FD55C57471AF0C0 0000000000000000 0000000000000000 0000000000000000 4000000000000000
E 0 3FF0000000000000 3 3 0 5 2 2 0
";

const REJECTED_AT_ORDER_2: &str = "\
+J 4000000000000000 7FE8EBBB9516E5AD
D 4008000000000000 7FE8EBBBB516E5AD
D 4008000000000000 7FF0000000000000
D 4004000000000000 7FE8EBBBA516E5AD
S 4000000000000000 4004000000000000 4000000000000000 3FE0000000000000 7FE8EBBBA516E5AD 7FE8EBBBA516E5AD 7E60000000000000 0000000000000000 0000000000000000 0000000000000000 0000000000000000 4000000000000000
D 4008000000000000 7FE8EBBBB516E5AD
D 4008000000000000 7FEE42D186DDA1DD
S 4004000000000000 4008000000000000 4004000000000000 3FE0000000000000 7FEE42D186DDA1DD 7FEE42D186DDA1DD 7FC55C57871AF0C0 7FC55C57471AF0C0 0000000000000000 0000000000000000 0000000000000000 4000000000000000
E 0 3FE0000000000000 5 4 1 8 2 3 0
";
