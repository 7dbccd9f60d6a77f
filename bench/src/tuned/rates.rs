//! Move, volatility and tentative rate (7.1; W-202, W-208), and the rates that the levels have of it.

use reference::record::Record;
use reference::security::Day;
use reference::units::{AGE, MILLIONTHS_IN_BP, VOLATILITY};

use super::levels::level_rates;
use super::step;

const ONE_IN_MILLIONTHS: u64 = 1_000_000;
const ONE_IN_TEN_THOUSANDTHS: u64 = 10_000;
const ONE_IN_HUNDREDTHS: u64 = 100;
/// Non-trading days above which a move is not weighed.
const HOLIDAYS_MAX: i64 = 1;

/// What a day makes of the rates.
pub struct Rated {
    pub s: i64,
    pub tentative: i64,
    pub age: i64,
    pub rates: [i64; 3],
}

/// The figures after a day with evaluation P; none where the move is too great (8). With isEWMA no they stay, and the
/// rates are their minima.
#[inline(always)]
pub fn after_day(record: &Record, day: &Day, p: i64) -> Option<Rated> {
    let statics = &record.statics;
    if !statics.is_ewma {
        return Some(Rated {
            s: record.s,
            tentative: record.tentative,
            age: record.age,
            rates: statics.minima,
        });
    }
    let r = price_move(p, record.p1, record.p2)?;
    let (s, t) = turn(record, day, r);
    let (tentative, age) = stepped(record, t);
    Some(Rated {
        s: s as i64,
        tentative,
        age,
        rates: level_rates(statics, tentative as u64, day.days_closed),
    })
}

/// Place (e): the greater move from the earlier evaluations, up to a millionth; none above 1,000,000. Rounding up keeps
/// order, so that the greater quotient alone is divided: the two are compared by their cross products.
#[inline(always)]
fn price_move(p: i64, p1: i64, p2: i64) -> Option<u64> {
    let [moved_1, moved_2] = [p1, p2].map(|earlier| (p - earlier).unsigned_abs());
    let [p1, p2] = [p1, p2].map(|earlier| earlier as u64);
    let is_first = u128::from(moved_1) * u128::from(p2) >= u128::from(moved_2) * u128::from(p1);
    let (moved, earlier) = if is_first {
        (moved_1, p1)
    } else {
        (moved_2, p2)
    };
    let r = (moved * ONE_IN_MILLIONTHS + (earlier - 1)) / earlier;
    (r <= *VOLATILITY.end() as u64).then_some(r)
}

/// New s, and t. y exceeds x exactly where 100·r exceeds q·x, since y is the least with y·q ≥ 100·r: so nothing is
/// divided by q but where y is chosen.
#[inline(always)]
fn turn(record: &Record, day: &Day, r: u64) -> (u64, u64) {
    let statics = &record.statics;
    let q = statics.multiplier as u64;
    let x = weighed(record, day, r);
    let is_passed = (day.days_between <= HOLIDAYS_MAX)
        & (r as i64 > MILLIONTHS_IN_BP * record.rates[0])
        & (ONE_IN_HUNDREDTHS * r > q * x);
    let h = step(statics);
    if is_passed {
        let y = (ONE_IN_HUNDREDTHS * r + q - 1) / q;
        (y, h.multiple_from(up_to_bp(r, MILLIONTHS_IN_BP as u64)))
    } else {
        (x, h.multiple_from(up_to_bp(q * x, ONE_IN_TEN_THOUSANDTHS)))
    }
}

/// n/by, up. A quotient that is rounded up to a whole number and then to a multiple of h is the one that is rounded up
/// to a multiple of h at once, since the multiples are whole numbers; and the divisor is a constant here.
#[inline(always)]
fn up_to_bp(n: u64, by: u64) -> u64 {
    (n + by - 1) / by
}

/// x, the weighed volatility: the least x with 10,000·x² ≥ (10,000 - a)·s² + a·r², at most 10^16.
#[inline(always)]
fn weighed(record: &Record, day: &Day, r: u64) -> u64 {
    let statics = &record.statics;
    let s = record.s as u64;
    let a = if day.days_between > HOLIDAYS_MAX {
        0
    } else if r > s {
        statics.a_up as u64
    } else {
        statics.a_down as u64
    };
    least_root((ONE_IN_TEN_THOUSANDTHS - a) * (s * s) + a * (r * r))
}

/// The least x with 10,000·x² ≥ n, n at most 10^16. The float is within a millionth of the exact root, which is at most
/// 10^6. So the exact root is less than a half and a millionth from the guess: it is above the guess less 1 and at most
/// the guess and 1, and the least x is one of these two.
#[inline(always)]
fn least_root(n: u64) -> u64 {
    let guess = ((n as f64).sqrt() * 0.01 + 0.5) as u64;
    guess + u64::from(ONE_IN_TEN_THOUSANDTHS * guess * guess < n)
}

/// The tentative rate and its age: up to t, down by one h after the wait, or as it was.
#[inline(always)]
fn stepped(record: &Record, t: u64) -> (i64, i64) {
    let (t, before, h) = (t as i64, record.tentative, record.statics.step);
    let waited = record.age + 1;
    if t >= before + h {
        (t, 0)
    } else if (t <= before - h) & (waited >= record.statics.wait) {
        (before - h, 0)
    } else {
        (before, waited.min(*AGE.end()))
    }
}
