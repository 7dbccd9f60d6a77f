//! What the tests share: the paper's statics Z with an evening's and without
//! outside prices, and securities with them.

#![allow(dead_code)]

use reference::evaluation;
use reference::outside::Outside;
use reference::record::Record;
use reference::security::{admitted, Admission, Day, Quote, RepoTerm};
use reference::statics::STATICS;

/// Statics Z of document 01, in the order of its table; then 120 seconds, moves
/// in the evening, and at most two of them; UseEXTERNAL no.
pub const Z: [i64; STATICS] = [
    10, 100, 300, 1000, 500, 5, 2, 5, 8, 50, 500, 700, 900, 4000, 200, 25, 2000, 2000, 1000, 60, 1,
    1, 120, 1, 2, 0,
];

/// Places of the statics in Z.
pub const LOT: usize = 0;
pub const PCL_MAX: usize = 17;
pub const MONITORING: usize = 20;
pub const IS_EWMA: usize = 21;
pub const EVENING_SECONDS: usize = 22;
pub const AUTOCHANGE: usize = 23;
pub const EVENING_MAXIMUM: usize = 24;
pub const USE_EXTERNAL: usize = 25;

/// A repo band of 0.
pub const NO_REPO: RepoTerm = RepoTerm {
    days: 0,
    rrcl: 0,
    rrch: 0,
};

pub fn z_with(changes: &[(usize, i64)]) -> [i64; STATICS] {
    let mut statics = Z;
    for (place, value) in changes {
        statics[*place] = *value;
    }
    statics
}

/// The admission of the paper's cases: id 7, day 0, s 20,000.
pub fn admission(earlier: i64, tentative: i64) -> Admission {
    Admission {
        id: 7,
        day: 0,
        p1: earlier,
        p2: earlier,
        s: 20_000,
        tentative,
        statics: Z,
    }
}

pub fn security(earlier: i64, tentative: i64) -> Record {
    admitted(&admission(earlier, tentative)).expect("the paper's case is in range")
}

/// A rouble row that trades at a price.
pub fn traded(price: i64) -> [i64; 7] {
    [0, 10_000, 0, price, 0, 0, 1]
}

/// The evaluation of rows without outside prices.
pub fn evaluation(rows: &[i64], previous: i64, grid: i64) -> Option<i64> {
    evaluation::evaluation(rows, Outside::NONE, previous, grid)
}

pub fn day(number: i64, rows: &[i64]) -> Day<'_> {
    Day {
        number,
        days_between: 0,
        days_closed: 0,
        terms: [NO_REPO; 3],
        rows,
    }
}

pub fn quote(second: i64, bid: i64, ask: i64) -> Quote {
    Quote {
        second,
        term: 0,
        bid,
        ask,
    }
}
