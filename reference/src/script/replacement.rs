//! Shares and days at the edges of a replacement (W-202): a move whose
//! replacement stands beside the weighed volatility, and whose own t stands
//! beside S_max, the tentative rate or a multiple of h.

use crate::ewma::{self, Volatility};
use crate::exact::{least, narrow, wide};
use crate::random::Random;
use crate::rates::{move_target, price_move};
use crate::record::{is_price, Record};
use crate::statics::Statics;
use crate::units::{MILLIONTHS_IN_BP, ONE_IN_MILLIONTHS, RATE, VOLATILITY};

use super::edges::neighbours;
use super::{day, share};

/// The greatest move, in millionths.
const MOVE_MAX: i64 = *VOLATILITY.end();
/// A replacement changes within so many millionths of a move: q is at most ten
/// times 100.
const REPLACEMENT_MOVES: i64 = 10;
/// Holidays behind a day whose replacement is asked for.
const FEW_HOLIDAYS: i64 = 0;
/// Attempts at values that fit each other.
const ATTEMPTS: usize = 200;

/// How far the replacement stands above the weighed volatility; none is far.
const ABOVE_WEIGHED: [Option<i64>; 4] = [Some(-1), Some(0), Some(1), None];
/// How many steps the old tentative rate stands above t.
const ABOVE_TARGET: [i64; 3] = [-1, 0, 1];
/// How many steps S_max stands above t; none is as far as it may.
const MAXIMUM_ABOVE: [Option<i64>; 4] = [Some(-1), Some(0), Some(1), None];
/// Shares made for every meeting of the three.
pub const SHARES: usize = ABOVE_WEIGHED.len() * ABOVE_TARGET.len() * MAXIMUM_ABOVE.len();

/// A share, and the price that moves it to the edge it is made for.
pub struct Made {
    pub admission: Vec<i64>,
    pub price: i64,
}

/// The share of a turn, whose first day, at the price, stands at an edge. The
/// ordinary t gives another tentative rate.
pub fn made(random: &mut Random, id: i64, turn: usize) -> Option<Made> {
    (0..ATTEMPTS).find_map(|_| attempt(random, id, turn))
}

fn attempt(random: &mut Random, id: i64, turn: usize) -> Option<Made> {
    let above_weighed = ABOVE_WEIGHED[turn % 4];
    let above_target = ABOVE_TARGET[turn / 4 % 3];
    let maximum_above = MAXIMUM_ABOVE[turn / 12 % 4];
    let statics = share::statics(random);
    let step = statics.step;
    let steps = random.between(1, *RATE.end() / step);
    let r = beside_multiple(random, step, steps);
    let t = move_target(&statics, r);
    let statics = fitted(
        random,
        statics,
        r,
        maximum_above.map(|steps| t + steps * step),
    );
    let model = statics.model();
    let y = ewma::replacement(&model, r, 0, FEW_HOLIDAYS)?;
    let x = y - above_weighed.unwrap_or(y / 2);
    let before = Volatility {
        s: weighing(&statics, r, x)?,
        tentative: (t + above_target * step).clamp(0, statics.tentative_max()),
        age: 0,
    };
    let stepped = |t: i64| ewma::stepped(&model, x.max(y), t, &before);
    let ordinary = ewma::target(&model, x.max(y), MILLIONTHS_IN_BP);
    if stepped(ordinary) == stepped(t) {
        return None;
    }
    let p = share::either(
        random,
        &[1_000_000, 300_000_000],
        (1_000_000, 5_000_000_000),
    );
    Some(Made {
        price: price_at(random, &statics, [p, p], r)?,
        admission: share::numbers(&[id, 0, p, p, before.s, before.tentative], &statics),
    })
}

/// Statics with the model on and a fine grid, the given S_max or the greatest,
/// and 100·S_1 below the move.
fn fitted(random: &mut Random, statics: Statics, r: i64, s_max: Option<i64>) -> Statics {
    let step = statics.step;
    let greatest = *RATE.end() / step * step;
    let s_max = s_max.unwrap_or(greatest).clamp(0, greatest);
    let below = (r - 1) / (MILLIONTHS_IN_BP * step);
    let rate = step * random.pick(&[below, below, below / 2, 0]);
    Statics {
        is_ewma: true,
        lot: random.pick(&[11, 99, 100, 100]),
        wait: random.pick(&[1, 1, 1, statics.wait]),
        s_max,
        minima: [rate.min(s_max); 3],
        ..statics
    }
}

/// A move at or beside so many steps of 100·h, or a few millionths below,
/// where the ordinary t may be a step greater.
fn beside_multiple(random: &mut Random, step: i64, steps: i64) -> i64 {
    let beside = match random.below(4) {
        0 => 0,
        1 => random.pick(&[-1, 1]),
        _ => -random.between(0, REPLACEMENT_MOVES),
    };
    (MILLIONTHS_IN_BP * step * steps + beside).clamp(1, MOVE_MAX)
}

/// A volatility that, weighed with the move, gives x; none where there is none.
fn weighing(statics: &Statics, r: i64, x: i64) -> Option<i64> {
    let model = statics.model();
    let weighed = |s: i128| ewma::weighed(&model, narrow(s), r, FEW_HOLIDAYS);
    let s = least(0, wide(*VOLATILITY.end()), |s| weighed(s) >= x);
    (weighed(s) == x).then(|| narrow(s))
}

/// A price on the grid whose move from the two earlier ones is exactly r.
fn price_at(random: &mut Random, statics: &Statics, earlier: [i64; 2], r: i64) -> Option<i64> {
    let [p1, p2] = earlier;
    let grid = statics.grid();
    let reach = |p: i64| narrow(wide(p) * wide(r) / ONE_IN_MILLIONTHS) / grid * grid;
    let (least, greatest) = (p1.min(p2), p1.max(p2));
    let (up, down) = (least + reach(least), greatest - reach(greatest));
    let tried = if random.chance(60) {
        [up, down]
    } else {
        [down, up]
    };
    let is_at = |price: &i64| is_price(statics, *price) && price_move(*price, p1, p2) == r;
    tried.iter().copied().find(is_at)
}

/// A price for a record's next day that moves it to an edge; none where the
/// grid or the model is too coarse for it.
pub fn price(random: &mut Random, record: &Record) -> Option<i64> {
    let statics = &record.statics;
    if !statics.is_ewma {
        return None;
    }
    let step = statics.step;
    let rate = record.rates[0];
    let nearby = random.pick(&[-1, 0, 1]);
    let r = match random.below(10) {
        0..=2 => beside_weighed(random, record)?,
        3 | 4 => beside_multiple(random, step, statics.s_max / step + nearby),
        5 => beside_multiple(random, step, record.tentative / step + nearby),
        6 | 7 => (MILLIONTHS_IN_BP * rate + random.pick(&[0, 1, 1])).clamp(1, MOVE_MAX),
        _ => {
            let steps = random.between(rate / step, *RATE.end() / step);
            beside_multiple(random, step, steps)
        }
    };
    price_at(random, statics, [record.p1, record.p2], r)
}

/// A move above 100·S_1 whose replacement is one below, equal to or one above
/// the weighed volatility.
fn beside_weighed(random: &mut Random, record: &Record) -> Option<i64> {
    let model = record.statics.model();
    let last_rate = MILLIONTHS_IN_BP * record.rates[0];
    let above = |r: i64| {
        let y = ewma::replacement(&model, r, last_rate, FEW_HOLIDAYS)?;
        Some(y - ewma::weighed(&model, record.s, r, FEW_HOLIDAYS))
    };
    let is_greater = |r: i64| above(r).map(|above| above > 0);
    let (low, _) = neighbours(last_rate + 1, MOVE_MAX, is_greater)?;
    let wanted = random.pick(&[-1, 0, 1]);
    let around = low - 3 * REPLACEMENT_MOVES..=low + 3 * REPLACEMENT_MOVES;
    let found: Vec<i64> = around.filter(|r| above(*r) == Some(wanted)).collect();
    (!found.is_empty()).then(|| random.pick(&found))
}

/// A day after so many holidays on which a share trades at a price, with no
/// repo rates.
pub fn day_at(random: &mut Random, id: i64, number: i64, holidays: i64, price: i64) -> Vec<i64> {
    let mut numbers = day::bare(id, number);
    numbers[2] = holidays;
    numbers[3] = random.pick(&[0, 0, 1, 6]);
    numbers.extend(day::traded_row(price));
    numbers
}
