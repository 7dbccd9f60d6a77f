//! The rates of the levels (7.1): each is guessed from a table of roots, and then checked.
//!
//! A rate of v covers level L where v·rh_1 is at least sqrt(rh_L)·(tentative·sqrt(rh_1 + m) + liq·sqrt(rh_1)). So the
//! requirement in steps is that over rh_1·h. Each root of the table is too small by at most 2^-20 of itself, and the
//! reciprocal of rh_1·h by far less. So what is guessed for a requirement of 10,000 steps, the most that S_max can
//! have, is too small by less than 0.02; and where it is rounded to the nearest whole number, the requirement is above
//! that number less 1 and at most that number and 1. The least number of steps that covers it is that number or the
//! next, and one test tells which. Where the guess is above S_max it is so by a step or more, and then the requirement
//! is above S_max too.

use reference::statics::Statics;

use super::divisor::high_half;

/// The most days of a level. rh_1 + m is at most 15.
const DAYS_MOST: usize = 30;
/// What a root is scaled by.
const ROOT_BITS: u32 = 20;
/// What the reciprocal of a step is scaled by: less the 64 that are cut off, it and two roots leave 20 bits.
const STEP_BITS: u32 = 44;
const LEFT_BITS: u32 = 2 * ROOT_BITS + STEP_BITS - u64::BITS;

/// The roots of 0 to 30 days, scaled, down.
const ROOTS: [u64; DAYS_MOST + 1] = roots();

const fn roots() -> [u64; DAYS_MOST + 1] {
    let mut roots = [0; DAYS_MOST + 1];
    let mut days = 1;
    while days <= DAYS_MOST {
        roots[days] = root((days as u64) << (2 * ROOT_BITS));
        days += 1;
    }
    roots
}

/// The root of n, down, bit by bit.
const fn root(n: u64) -> u64 {
    let mut root = 0;
    let mut bit = 1 << (u64::BITS / 2 - 1);
    while bit > 0 {
        if (root + bit) * (root + bit) <= n {
            root += bit;
        }
        bit >>= 1;
    }
    root
}

/// What the levels share of their requirements.
struct Requirement {
    /// tentative·sqrt(rh_1 + m) + liq·sqrt(rh_1), scaled as a root is.
    sum: u64,
    /// tentative²·(rh_1 + m) and liq²·rh_1.
    squares: [u64; 2],
    /// rh_1·h, and its reciprocal, scaled.
    step: u64,
    steps_in_one: u64,
}

impl Requirement {
    #[inline(always)]
    fn new(statics: &Statics, tentative: u64, days_closed: i64) -> Requirement {
        let rh_1 = statics.horizons[0] as u64;
        let ahead = rh_1 + days_closed as u64;
        let liq = statics.liq as u64;
        let step = rh_1 * statics.step as u64;
        Requirement {
            sum: tentative * ROOTS[ahead as usize] + liq * ROOTS[rh_1 as usize],
            squares: [tentative * tentative * ahead, liq * liq * rh_1],
            step,
            steps_in_one: (1 << STEP_BITS) / step,
        }
    }

    /// The whole number of steps nearest to what a level of rh days requires, guessed. The product with the root is at
    /// most 2.4·10^18.
    #[inline(always)]
    fn guess(&self, rh: u64) -> u64 {
        let scaled = high_half(self.sum * ROOTS[rh as usize], self.steps_in_one);
        (scaled + (1 << (LEFT_BITS - 1))) >> LEFT_BITS
    }

    /// Whether so many steps cover what a level of rh days requires.
    #[inline(always)]
    fn is_met_by(&self, steps: u64, rh: u64) -> bool {
        let [a, b] = self.squares;
        covers(steps * self.step, rh * a, rh * b)
    }
}

/// Whether x ≥ sqrt(a) + sqrt(b). Where x² is less than a + b, what else is formed is of no account.
#[inline(always)]
fn covers(x: u64, a: u64, b: u64) -> bool {
    let (square, sum) = (x * x, a + b);
    let rest = square.wrapping_sub(sum);
    (square >= sum) & (rest.wrapping_mul(rest) >= (4 * a).wrapping_mul(b))
}

/// The three rates: the least multiples of h that cover, from their minima to S_max, which are multiples too.
#[inline(always)]
pub fn level_rates(statics: &Statics, tentative: u64, days_closed: i64) -> [i64; 3] {
    let requirement = Requirement::new(statics, tentative, days_closed);
    let (h, s_max) = (statics.step as u64, statics.s_max as u64);
    [0, 1, 2].map(|level| {
        let rh = statics.horizons[level] as u64;
        let steps = requirement.guess(rh);
        let is_short = (steps * h <= s_max) & !requirement.is_met_by(steps, rh);
        let least = (steps + u64::from(is_short)) * h;
        (least.min(s_max) as i64).max(statics.minima[level])
    })
}
