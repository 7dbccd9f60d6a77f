//! Shares whose first day has a band limit at a multiple of the grid, a part
//! above it or a part below it, or a band so narrow that inward limits cross
//! (W-209).

use crate::count_bond::Beside;
use crate::limits::{furthest, growth, spread};
use crate::random::Random;
use crate::record::Side;
use crate::statics::Statics;
use crate::units::{PRICE, REPO_RATE};

use super::bond::solved;
use super::{day, edges, share};

/// A lot of each grid.
const LOTS: [i64; 3] = [1, 10, 100];
const SIDES: [Side; 2] = [Side::Upper, Side::Lower];
const BESIDES: [Beside; 3] = [Beside::Whole, Beside::PartAbove, Beside::PartBelow];
/// Shares for each meeting of these, monitored and not.
const LIMITS: usize = 2 * LOTS.len() * SIDES.len() * BESIDES.len();
/// Shares of each grid whose band crosses or touches.
const NARROW: usize = 4 * LOTS.len();
pub const SHARES: usize = LIMITS + NARROW;
/// Attempts at values that fit each other.
const ATTEMPTS: usize = 200;
/// The first place of the terms.
const TERMS: usize = 4;
/// A repo rate that grows by few parts: 3,650,000/10,000.
const ROUND_RATE: i64 = 365;

/// A share and its first day.
pub struct Made {
    pub admission: Vec<i64>,
    pub day: Vec<i64>,
}

/// The share of a turn.
pub fn made(random: &mut Random, id: i64, turn: usize) -> Option<Made> {
    if turn < LIMITS {
        (0..ATTEMPTS).find_map(|_| at_a_limit(random, id, turn))
    } else {
        Some(narrow(random, id, LOTS[turn % 3]))
    }
}

/// Statics whose rates are their minima.
fn plain(random: &mut Random, lot: i64) -> Statics {
    Statics {
        lot,
        is_ewma: false,
        ..share::statics(random)
    }
}

fn at_a_limit(random: &mut Random, id: i64, turn: usize) -> Option<Made> {
    let (lot, side) = (LOTS[turn % 3], SIDES[turn / 3 % 2]);
    let beside = BESIDES[turn / 6 % 3];
    let mut statics = plain(random, lot);
    statics.monitoring = turn < LIMITS / 2;
    statics.x_pr = random.pick(&[100, 200, 500, 999, 1_000]);
    let farthest = if statics.monitoring {
        random.pick(&[9_000, 10_000])
    } else {
        random.between(1, 9_999)
    };
    (statics.pch_max, statics.pcl_max) = (farthest, farthest);
    let term = [
        random.pick(&[0, 1, 2, 10, 30]),
        0,
        ROUND_RATE * random.between(0, 9),
    ];
    let rate = match side {
        Side::Upper => term[2],
        Side::Lower => term[1],
    };
    let factor = if statics.monitoring {
        spread(&statics, statics.minima[0], 0, side).times(growth(rate, term[0]))
    } else {
        furthest(&statics, side)
    };
    let grid = statics.grid();
    let most = random.pick(&[1_000, 100_000, *PRICE.end() / grid]);
    let steps = solved(random, factor, beside, most)?;
    let p = grid * steps;
    (steps > 0).then(|| made_of(id, &statics, p, [term; 3]))
}

/// A share of few grid steps with hardly a spread, whose repo band lies a little
/// above 0.
fn narrow(random: &mut Random, id: i64, lot: i64) -> Made {
    let mut statics = plain(random, lot);
    statics.monitoring = true;
    statics.minima[0] = 0;
    statics.pch_max = random.between(1, 50);
    statics.pcl_max = random.between(1, 50);
    let rate = random.pick(&[0, ROUND_RATE, ROUND_RATE, -ROUND_RATE]);
    let term = [random.between(1, 30), rate, rate.max(*REPO_RATE.end() / 30)];
    let p = statics.grid() * random.between(1, 20);
    made_of(id, &statics, p, [term, [0, 0, 0], [0, 0, 0]])
}

fn made_of(id: i64, statics: &Statics, p: i64, terms: [[i64; 3]; 3]) -> Made {
    let mut numbers = day::bare(id, 1);
    numbers[TERMS..edges::DAY.len()].copy_from_slice(&terms.concat());
    numbers.extend(day::traded_row(p));
    Made {
        admission: share::numbers(&[id, 0, p, p, 0, 0], statics),
        day: numbers,
    }
}
