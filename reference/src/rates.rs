//! Move, volatility, tentative rate and level rates (document 01, "The rates
//! (7.1)").

use crate::ewma::{self, Chosen, Volatility};
use crate::exact::{least, narrow, wide, Quotient};
use crate::refusal::Refusal;
use crate::statics::Statics;
use crate::units::{MILLIONTHS_IN_BP, ONE_IN_MILLIONTHS, VOLATILITY};

/// What a day says to the rates: the evaluation, the two earlier ones, the
/// last S_1 and the holidays behind.
#[derive(Clone, Copy, Debug)]
pub struct DayMove {
    pub p: i64,
    pub p1: i64,
    pub p2: i64,
    pub last_s_1: i64,
    pub days_between: i64,
}

/// Place (e): the greater move from the earlier evaluations, up to a
/// millionth.
pub fn price_move(p: i64, p1: i64, p2: i64) -> i64 {
    let from = |earlier: i64| {
        let moved = Quotient {
            numerator: wide((p - earlier).abs()) * ONE_IN_MILLIONTHS,
            denominator: wide(earlier),
        };
        narrow(moved.up())
    };
    from(p1).max(from(p2))
}

/// What a day's move does to the volatility, and t.
#[derive(Clone, Copy, Debug)]
pub struct Turn {
    /// The move, by (e).
    pub r: i64,
    /// The weighed volatility.
    pub x: i64,
    /// The replacement, where its condition holds.
    pub y: Option<i64>,
    pub chosen: Chosen,
    pub t: i64,
}

/// The turn of a day; refused where the move is too great.
pub fn turn(statics: &Statics, before: &Volatility, day: &DayMove) -> Result<Turn, Refusal> {
    let r = price_move(day.p, day.p1, day.p2);
    if !VOLATILITY.contains(&r) {
        return Err(Refusal::MoveTooGreat);
    }
    let model = statics.model();
    let last_rate = MILLIONTHS_IN_BP * day.last_s_1;
    let x = ewma::weighed(&model, before.s, r, day.days_between);
    let y = ewma::replacement(&model, r, last_rate, day.days_between);
    let chosen = ewma::chosen(x, y);
    let t = match chosen {
        Chosen::Weighed(s) => target(statics, s),
        Chosen::Replacement(_) => move_target(statics, r),
    };
    let turn = Turn { r, x, y, chosen, t };
    Ok(turn)
}

/// Volatility, tentative rate and age after a day. With isEWMA no they stay.
pub fn after_day(
    statics: &Statics,
    before: &Volatility,
    day: &DayMove,
) -> Result<Volatility, Refusal> {
    if !statics.is_ewma {
        return Ok(*before);
    }
    let Turn { chosen, t, .. } = turn(statics, before, day)?;
    Ok(ewma::stepped(&statics.model(), chosen.s(), t, before))
}

/// t of a volatility: the least multiple of h with 10,000·t ≥ q·s. S_max does
/// not hold it (W-208), but the rates alone.
pub fn target(statics: &Statics, s: i64) -> i64 {
    ewma::target(&statics.model(), s, MILLIONTHS_IN_BP)
}

/// t where a share's replacement is chosen (W-202): the least multiple of h
/// with 100·t ≥ r.
pub fn move_target(statics: &Statics, r: i64) -> i64 {
    let in_bp = Quotient {
        numerator: wide(r),
        denominator: wide(MILLIONTHS_IN_BP),
    };
    in_bp.up_to(statics.step)
}

/// What a level's rate has to cover.
struct Requirement {
    horizon: i128,
    horizon_1: i128,
    /// rh_1 + m.
    ahead: i128,
    tentative: i128,
    liq: i128,
}

impl Requirement {
    /// v ≥ sqrt(rh_L/rh_1)·(tentative·sqrt((rh_1 + m)/rh_1) + liq), exactly:
    /// with A as below, A ≥ 0 and
    /// A² ≥ 4·rh_L²·tentative²·liq²·rh_1·(rh_1 + m).
    fn is_met_by(&self, v: i128) -> bool {
        let a = v * v * self.horizon_1 * self.horizon_1
            - self.horizon * self.tentative * self.tentative * self.ahead
            - self.horizon * self.horizon_1 * self.liq * self.liq;
        let crossed = 2 * self.horizon * self.tentative * self.liq;
        a >= 0 && a * a >= crossed * crossed * self.horizon_1 * self.ahead
    }
}

/// The requirement of a level (0, 1, 2 for the paper's 1, 2, 3).
fn requirement(statics: &Statics, level: usize, tentative: i64, days_closed: i64) -> Requirement {
    Requirement {
        horizon: wide(statics.horizons[level]),
        horizon_1: wide(statics.horizons[0]),
        ahead: wide(statics.horizons[0] + days_closed),
        tentative: wide(tentative),
        liq: wide(statics.liq),
    }
}

/// The least multiple of h that covers a level's requirement, whatever the
/// minimum; none where S_max does not cover it.
pub fn least_covering(
    statics: &Statics,
    level: usize,
    tentative: i64,
    days_closed: i64,
) -> Option<i64> {
    let requirement = requirement(statics, level, tentative, days_closed);
    let step = wide(statics.step);
    let most = wide(statics.s_max) / step;
    let covers = |steps: i128| requirement.is_met_by(steps * step);
    covers(most).then(|| narrow(least(0, most, covers) * step))
}

/// The rate of a level (0, 1, 2 for the paper's 1, 2, 3): S_max where the
/// requirement exceeds it, else the least multiple of h from S_L_min up that
/// meets it. With isEWMA no, the minimum.
pub fn level_rate(statics: &Statics, level: usize, tentative: i64, days_closed: i64) -> i64 {
    let minimum = statics.minima[level];
    if !statics.is_ewma {
        return minimum;
    }
    let requirement = requirement(statics, level, tentative, days_closed);
    if !requirement.is_met_by(wide(statics.s_max)) {
        return statics.s_max;
    }
    let step = wide(statics.step);
    let steps = least(wide(minimum) / step, wide(statics.s_max) / step, |steps| {
        requirement.is_met_by(steps * step)
    });
    narrow(steps * step)
}

/// The three rates.
pub fn level_rates(statics: &Statics, tentative: i64, days_closed: i64) -> [i64; 3] {
    [0, 1, 2].map(|level| level_rate(statics, level, tentative, days_closed))
}
