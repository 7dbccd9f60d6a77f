//! Shares whose tentative rate stands above S_max, or at the top of its range
//! (W-208), and their first days.

use crate::random::Random;
use crate::statics::Statics;
use crate::units::{ONE_IN_TEN_THOUSANDTHS, TARGET_MAX, VOLATILITY};

use super::share;

/// The steps whose tops are asked for.
const STEPS: [i64; 4] = [1, 7, 999, 1_000];
/// How many steps t stands above S_max.
const TARGET_ABOVE: [i64; 4] = [-1, 0, 1, 5];
/// How many steps the old tentative rate stands above S_max.
const TENTATIVE_ABOVE: [i64; 4] = [-1, 0, 1, 2];
/// Shares at the top, then shares for each meeting of the two.
pub const SHARES: usize = 2 * STEPS.len() + BESIDE + FALLING;
const BESIDE: usize = TARGET_ABOVE.len() * TENTATIVE_ABOVE.len();
/// Shares whose tentative rate falls from far above S_max.
const FALLING: usize = 3;

/// A share, an admission of it that is refused, and how many bare days it has.
pub struct Made {
    pub refused: Vec<i64>,
    pub admission: Vec<i64>,
    pub days: i64,
}

/// The share of a turn.
pub fn made(random: &mut Random, id: i64, turn: usize) -> Made {
    let tops = 2 * STEPS.len();
    if turn < tops {
        at_the_top(random, id, STEPS[turn / 2], turn % 2 == 0)
    } else if turn < tops + BESIDE {
        let meeting = turn - tops;
        let above = (TARGET_ABOVE[meeting % 4], TENTATIVE_ABOVE[meeting / 4]);
        beside_the_maximum(random, id, above)
    } else {
        falling(random, id)
    }
}

/// Statics whose volatility stays while the price does.
fn quiet(random: &mut Random, step: i64) -> Statics {
    let steps = random.between(2, 4_000 / step + 2);
    Statics {
        a_up: 0,
        a_down: 0,
        is_ewma: true,
        step,
        minima: [0; 3],
        s_max: step * steps,
        ..share::statics(random)
    }
}

/// The volatility that gives t.
fn volatility(statics: &Statics, t: i64) -> i64 {
    t * ONE_IN_TEN_THOUSANDTHS as i64 / statics.multiplier
}

fn admission(random: &mut Random, id: i64, statics: &Statics, s: i64, tentative: i64) -> Vec<i64> {
    let p = share::price(random, statics.grid());
    let s = s.clamp(*VOLATILITY.start(), *VOLATILITY.end());
    share::numbers(&[id, 0, p, p, s, tentative], statics)
}

/// A share that rises to the top of the range, or falls from it.
fn at_the_top(random: &mut Random, id: i64, step: i64, rises: bool) -> Made {
    let statics = Statics {
        multiplier: 1_000,
        wait: 1,
        ..quiet(random, step)
    };
    let top = statics.tentative_max();
    let (s, tentative) = if rises {
        let below = step * random.between(1, 3);
        (*VOLATILITY.end(), top - below)
    } else {
        (random.between(0, 1_000), top)
    };
    // A step past the top, or 100,000 where that is no multiple of h.
    let beyond = if rises || TARGET_MAX % step == 0 {
        top + step
    } else {
        TARGET_MAX
    };
    Made {
        refused: admission(random, id, &statics, s, beyond),
        admission: admission(random, id, &statics, s, tentative),
        days: 2,
    }
}

/// A share whose t and tentative rate stand beside S_max.
fn beside_the_maximum(random: &mut Random, id: i64, above: (i64, i64)) -> Made {
    let step = random.pick(&[1, 10, 25, 100, 250, 1_000]);
    let statics = Statics {
        wait: random.pick(&[1, 1, 2]),
        ..quiet(random, step)
    };
    let (t, tentative) = (
        statics.s_max + above.0 * step,
        statics.s_max + above.1 * step,
    );
    let s = volatility(&statics, t);
    Made {
        refused: admission(random, id, &statics, s, TARGET_MAX + step),
        admission: admission(random, id, &statics, s, tentative),
        days: 3,
    }
}

/// A share without liquidity whose S_1 is S_max until the tentative rate has
/// fallen to it.
fn falling(random: &mut Random, id: i64) -> Made {
    let step = random.pick(&[7, 100, 250]);
    let statics = Statics {
        wait: 1,
        liq: 0,
        ..quiet(random, step)
    };
    let tentative = statics.s_max + 3 * step;
    Made {
        refused: admission(random, id, &statics, 0, tentative + 1),
        admission: admission(random, id, &statics, 0, tentative),
        days: 6,
    }
}
