//! Range limits, band limits and delta, each rounded once: place (g)
//! (document 01, "Ranges, bands, alerts, moves"). Band limits go into the band
//! (W-209), the others half up.

use crate::exact::{wide, Quotient};
use crate::record::Side;
use crate::statics::Statics;
use crate::units::{ONE_IN_BP, ONE_IN_HUNDREDTHS, YEAR_IN_DAY_BP};

/// 1 ± rate, exactly.
pub fn beside_one(rate: i64, side: Side) -> Quotient {
    let share = match side {
        Side::Upper => ONE_IN_BP + wide(rate),
        Side::Lower => ONE_IN_BP - wide(rate),
    };
    Quotient {
        numerator: share,
        denominator: ONE_IN_BP,
    }
}

/// A whole number of units as a quotient.
pub fn units(units: i64) -> Quotient {
    Quotient {
        numerator: wide(units),
        denominator: 1,
    }
}

/// A fresh range limit: P·(1 ± S_L), half up to the grid.
pub fn range_limit(statics: &Statics, p: i64, rate: i64, side: Side) -> i64 {
    units(p)
        .times(beside_one(rate, side))
        .half_up_to(statics.grid())
}

/// What one band limit is made from: the evaluation, S_1, the term's days,
/// that side's repo rate and that side's moves since the evaluation.
#[derive(Clone, Copy, Debug)]
pub struct BandInputs {
    pub p: i64,
    pub s_1: i64,
    pub days: i64,
    pub repo_rate: i64,
    pub moves: i64,
}

/// 1 + PcH_max or 1 - PcL_max, exactly.
pub fn furthest(statics: &Statics, side: Side) -> Quotient {
    match side {
        Side::Upper => beside_one(statics.pch_max, side),
        Side::Lower => beside_one(statics.pcl_max, side),
    }
}

/// 1 ± e·S_1/x_pr with e = 1 + 2·c·shift, exactly; no less than 0.
pub fn spread(statics: &Statics, s_1: i64, moves: i64, side: Side) -> Quotient {
    let one = ONE_IN_BP * wide(statics.x_pr);
    let e = ONE_IN_HUNDREDTHS + 2 * wide(moves) * wide(statics.shift);
    let spread = e * wide(s_1);
    Quotient {
        numerator: match side {
            Side::Upper => one + spread,
            Side::Lower => (one - spread).max(0),
        },
        denominator: one,
    }
}

/// 1 + rate·days/36500, the rate in per cent, exactly.
pub fn growth(rate: i64, days: i64) -> Quotient {
    Quotient {
        numerator: YEAR_IN_DAY_BP + wide(rate) * wide(days),
        denominator: YEAR_IN_DAY_BP,
    }
}

/// The narrower of two limits of a side: the lesser upper or the greater lower
/// one.
pub fn narrower(one: Quotient, other: Quotient, side: Side) -> Quotient {
    match side {
        Side::Upper => one.lesser(other),
        Side::Lower => one.greater(other),
    }
}

/// A band limit, rounded to the grid into the band (W-209).
pub fn band_limit(statics: &Statics, inputs: &BandInputs, side: Side) -> i64 {
    exact_band_limit(statics, inputs, side).rounded_to(side.inward(), statics.grid())
}

/// A band limit, exactly: with Monitoring yes the narrower of the two.
pub fn exact_band_limit(statics: &Statics, inputs: &BandInputs, side: Side) -> Quotient {
    let p = units(inputs.p);
    let furthest = p.times(furthest(statics, side));
    if !statics.monitoring {
        furthest
    } else {
        let spread = spread(statics, inputs.s_1, inputs.moves, side);
        let monitored = p.times(spread).times(growth(inputs.repo_rate, inputs.days));
        narrower(furthest, monitored, side)
    }
}

/// delta = 2·shift·S_1·P/x_pr, half up to the grid (18.4).
pub fn delta(statics: &Statics, p: i64, s_1: i64) -> i64 {
    let shifted = Quotient {
        numerator: 2 * wide(statics.shift) * wide(s_1) * wide(p),
        denominator: ONE_IN_BP * wide(statics.x_pr),
    };
    shifted.half_up_to(statics.grid())
}
