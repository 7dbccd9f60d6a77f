//! Whether a record is sound (document 01, "What the desk covers"; number 1).

use reference::record::{Record, Session, Term};
use reference::statics::{
    Statics, BAND_MAXIMUM, HORIZON, HORIZON_1, LIQ, LOT, MULTIPLIER, NEARNESS, NEAR_SECONDS, SHIFT,
    STEP, WAIT, WEIGHT, X_PR,
};
use reference::units::{
    AGE, DAYS_AHEAD, DAY_NUMBER, EVENING_MOVES, ID, LIMIT, MOVE_COUNT, OUTSIDE_PRICE, PRICE, RATE,
    REPO_RATE, SECOND, TARGET_MAX, VOLATILITY,
};

use super::{step, within};

/// Every field in its range, order, multiple of h and grid. The tests are joined without branches, since a record
/// nearly always is sound; only the step stands before, for something is divided by it.
#[inline(always)]
pub fn is_sound<const GRID: u64>(record: &Record) -> bool {
    if !within(&STEP, record.statics.step) {
        return false;
    }
    statics_are_sound(&record.statics)
        & figures_are_sound::<GRID>(record)
        & record
            .rates
            .iter()
            .fold(true, |sound, rate| sound & within(&RATE, *rate))
        & record
            .upper
            .iter()
            .fold(true, |sound, limit| sound & is_limit::<GRID>(*limit))
        & record
            .lower
            .iter()
            .fold(true, |sound, limit| sound & is_limit::<GRID>(*limit))
        & record
            .terms
            .iter()
            .fold(true, |sound, term| sound & is_term::<GRID>(term))
        & session_is_sound(record)
}

/// The numbers of which the step is one factor are few: one division serves them all.
#[inline(always)]
fn statics_are_sound(statics: &Statics) -> bool {
    let [rh_1, rh_2, rh_3] = statics.horizons;
    within(&LOT, statics.lot)
        & within(&MULTIPLIER, statics.multiplier)
        & within(&WEIGHT, statics.a_up)
        & within(&WEIGHT, statics.a_down)
        & within(&WAIT, statics.wait)
        & within(&HORIZON_1, rh_1)
        & within(&HORIZON, rh_3)
        & (rh_1 <= rh_2)
        & (rh_2 <= rh_3)
        & within(&LIQ, statics.liq)
        & rates_are_sound(statics)
        & within(&X_PR, statics.x_pr)
        & within(&SHIFT, statics.shift)
        & within(&BAND_MAXIMUM, statics.pch_max)
        & within(&BAND_MAXIMUM, statics.pcl_max)
        & within(&NEARNESS, statics.nearness)
        & within(&NEAR_SECONDS, statics.near_seconds)
        & within(&NEAR_SECONDS, statics.evening_seconds)
        & within(&EVENING_MOVES, statics.evening_maximum)
}

/// 0 ≤ S_1_min ≤ S_2_min ≤ S_3_min ≤ S_max ≤ 10,000, all multiples of h.
#[inline(always)]
fn rates_are_sound(statics: &Statics) -> bool {
    let [min_1, min_2, min_3] = statics.minima;
    let s_max = statics.s_max;
    let are_ordered = (0 <= min_1) & (min_1 <= min_2) & (min_2 <= min_3) & (min_3 <= s_max);
    let step = step(statics);
    let are_multiples = step.divides(min_1 as u64)
        & step.divides(min_2 as u64)
        & step.divides(min_3 as u64)
        & step.divides(s_max as u64);
    are_ordered & (s_max <= *RATE.end()) & are_multiples
}

#[inline(always)]
fn figures_are_sound<const GRID: u64>(record: &Record) -> bool {
    within(&ID, record.id)
        & within(&DAY_NUMBER, record.last_day())
        & is_price::<GRID>(record.p1)
        & is_price::<GRID>(record.p2)
        & within(&VOLATILITY, record.s)
        & is_tentative(&record.statics, record.tentative)
        & within(&AGE, record.age)
}

/// W-208: from 0 to the least multiple of h at or above 100,000. A multiple of h is at most that where it is less than
/// 100,000 + h, so that nothing is divided for it.
#[inline(always)]
fn is_tentative(statics: &Statics, tentative: i64) -> bool {
    (0 <= tentative)
        & (tentative < TARGET_MAX + statics.step)
        & step(statics).divides(tentative as u64)
}

#[inline(always)]
fn is_price<const GRID: u64>(price: i64) -> bool {
    within(&PRICE, price) & (price as u64 % GRID == 0)
}

#[inline(always)]
fn is_limit<const GRID: u64>(limit: i64) -> bool {
    within(&LIMIT, limit) & (limit as u64 % GRID == 0)
}

#[inline(always)]
fn is_term<const GRID: u64>(term: &Term) -> bool {
    // A side that is not near may stand for one that is near since second 0.
    is_repo_term(term.days, term.rrcl, term.rrch)
        & is_limit::<GRID>(term.lower)
        & is_limit::<GRID>(term.upper)
        & within(&SECOND, term.near_top.unwrap_or(0))
        & within(&SECOND, term.near_bottom.unwrap_or(0))
}

/// A term's days and repo band, RRcL ≤ RRcH.
#[inline(always)]
pub fn is_repo_term(days: i64, rrcl: i64, rrch: i64) -> bool {
    within(&DAYS_AHEAD, days)
        & (*REPO_RATE.start() <= rrcl)
        & (rrcl <= rrch)
        & (rrch <= *REPO_RATE.end())
}

#[inline(always)]
fn session_is_sound(record: &Record) -> bool {
    let moves = match record.session {
        Session::Main => 0,
        Session::Evening(moves) => moves,
    };
    within(&MOVE_COUNT, record.moves_upper)
        & within(&MOVE_COUNT, record.moves_lower)
        & within(&SECOND, record.last_second)
        & within(&EVENING_MOVES, moves)
        & within(&OUTSIDE_PRICE, record.outside.bid)
        & within(&OUTSIDE_PRICE, record.outside.ask)
}
