//! The volatility model that shares (7.1) and interest (14.4) have in common:
//! weight, root, replacement and the one-step-down rule. Volatility, change
//! and the rate that a change may pass share one unit, millionths for shares
//! and basis points for interest. There is no maximum (W-208): a
//! share holds its rates alone, and takes t from the move where its replacement is
//! chosen (W-202).

use crate::exact::{least, narrow, wide, Quotient};
use crate::units::{AGE, ONE_IN_HUNDREDTHS, ONE_IN_TEN_THOUSANDTHS};

/// Non-trading days above which a change is not weighed ("at most one").
const HOLIDAYS_MAX: i64 = 1;

/// The statics of the model.
#[derive(Clone, Copy, Debug, PartialEq, Eq)]
pub struct Model {
    pub a_up: i64,
    pub a_down: i64,
    /// The multiplier q, in hundredths.
    pub multiplier: i64,
    /// The step h, in basis points.
    pub step: i64,
    /// The wait n, in trading days.
    pub wait: i64,
}

/// The figures that an evaluation carries on from the day before.
#[derive(Clone, Copy, Debug, PartialEq, Eq)]
pub struct Volatility {
    pub s: i64,
    pub tentative: i64,
    pub age: i64,
}

/// The weight a, in ten-thousandths.
fn weight(model: &Model, change: i64, s: i64, days_between: i64) -> i64 {
    if days_between > HOLIDAYS_MAX {
        0
    } else if change > s {
        model.a_up
    } else {
        model.a_down
    }
}

/// x, the weighed volatility: the least x with
/// 10,000·x² ≥ (10,000 - a)·s² + a·change².
pub fn weighed(model: &Model, s: i64, change: i64, days_between: i64) -> i64 {
    let a = wide(weight(model, change, s, days_between));
    let (change, s) = (wide(change), wide(s));
    let square = (ONE_IN_TEN_THOUSANDTHS - a) * s * s + a * change * change;
    narrow(least(s.min(change), s.max(change), |x| {
        ONE_IN_TEN_THOUSANDTHS * x * x >= square
    }))
}

/// y, the replacement: the least y with y·q ≥ 100·change. None where the
/// change has not passed the last rate, or after more than one holiday.
pub fn replacement(model: &Model, change: i64, last_rate: i64, days_between: i64) -> Option<i64> {
    let needed = Quotient {
        numerator: ONE_IN_HUNDREDTHS * wide(change),
        denominator: wide(model.multiplier),
    };
    let is_passed = days_between <= HOLIDAYS_MAX && change > last_rate;
    is_passed.then(|| narrow(needed.up()))
}

/// New s, and which of the two it is.
#[derive(Clone, Copy, Debug, PartialEq, Eq)]
pub enum Chosen {
    Weighed(i64),
    Replacement(i64),
}

impl Chosen {
    pub fn s(self) -> i64 {
        match self {
            Chosen::Weighed(s) | Chosen::Replacement(s) => s,
        }
    }
}

/// The greater of the weighed volatility x and the replacement y; on a tie the
/// weighed one is chosen.
pub fn chosen(x: i64, y: Option<i64>) -> Chosen {
    match y {
        Some(y) if y > x => Chosen::Replacement(y),
        _ => Chosen::Weighed(x),
    }
}

/// New s of a change.
pub fn volatility(model: &Model, s: i64, change: i64, last_rate: i64, days_between: i64) -> Chosen {
    let x = weighed(model, s, change, days_between);
    chosen(x, replacement(model, change, last_rate, days_between))
}

/// t: the least multiple of h at or above q·s, where s has so many units to a
/// basis point.
pub fn target(model: &Model, s: i64, units_in_bp: i64) -> i64 {
    let multiplied = Quotient {
        numerator: wide(model.multiplier) * wide(s),
        denominator: ONE_IN_HUNDREDTHS * wide(units_in_bp),
    };
    multiplied.up_to(model.step)
}

/// The figures after volatility s: the tentative rate rises to t, falls by one
/// h after the wait, or stays.
pub fn stepped(model: &Model, s: i64, t: i64, before: &Volatility) -> Volatility {
    let tentative = if t >= before.tentative + model.step {
        t
    } else if t <= before.tentative - model.step && before.age + 1 >= model.wait {
        before.tentative - model.step
    } else {
        before.tentative
    };
    let age = if tentative == before.tentative {
        (before.age + 1).min(*AGE.end())
    } else {
        0
    };
    Volatility { s, tentative, age }
}
