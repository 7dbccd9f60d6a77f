//! Values at, beside and far beyond the ends of ranges, and the search for
//! two neighbours that part an outcome.

use std::ops::RangeInclusive;

use crate::random::Random;
use crate::statics as s;
use crate::units as u;

/// The two ends of a range.
pub type Ends = (i64, i64);

pub const fn ends(range: &RangeInclusive<i64>) -> Ends {
    (*range.start(), *range.end())
}

const FLAG: Ends = (0, 1);

/// The ends of the statics, in their order.
pub const STATICS: [Ends; s::STATICS] = [
    ends(&s::LOT),
    ends(&s::STEP),
    ends(&s::MULTIPLIER),
    ends(&s::WEIGHT),
    ends(&s::WEIGHT),
    ends(&s::WAIT),
    ends(&s::HORIZON_1),
    ends(&s::HORIZON),
    ends(&s::HORIZON),
    ends(&s::LIQ),
    ends(&u::RATE),
    ends(&u::RATE),
    ends(&u::RATE),
    ends(&u::RATE),
    ends(&s::X_PR),
    ends(&s::SHIFT),
    ends(&s::BAND_MAXIMUM),
    ends(&s::BAND_MAXIMUM),
    ends(&s::NEARNESS),
    ends(&s::NEAR_SECONDS),
    FLAG,
    FLAG,
    ends(&s::NEAR_SECONDS),
    FLAG,
    ends(&u::EVENING_MOVES),
    FLAG,
];

/// The ends of an admission's numbers before the statics.
pub const ADMISSION: [Ends; 6] = [
    ends(&u::ID),
    ends(&u::DAY_NUMBER),
    ends(&u::PRICE),
    ends(&u::PRICE),
    ends(&u::VOLATILITY),
    (0, u::TARGET_MAX),
];

const TERM: [Ends; 3] = [
    ends(&u::DAYS_AHEAD),
    ends(&u::REPO_RATE),
    ends(&u::REPO_RATE),
];

/// The ends of a day's numbers before the rows, the id first.
pub const DAY: [Ends; 13] = [
    ends(&u::ID),
    ends(&u::DAY_NUMBER),
    ends(&u::DAYS_BETWEEN),
    ends(&u::DAYS_CLOSED),
    TERM[0],
    TERM[1],
    TERM[2],
    TERM[0],
    TERM[1],
    TERM[2],
    TERM[0],
    TERM[1],
    TERM[2],
];

/// The ends of a row's numbers.
pub const ROW: [Ends; 7] = [
    ends(&u::DAYS_AHEAD),
    ends(&u::CENTRAL_RATE),
    ends(&u::REPO_RATE),
    ends(&u::ROW_PRICE),
    ends(&u::ROW_PRICE),
    ends(&u::ROW_PRICE),
    ends(&u::ROW_VOLUME),
];

/// The ends of a quote's numbers, the id first.
pub const QUOTE: [Ends; 5] = [
    ends(&u::ID),
    ends(&u::SECOND),
    (0, 2),
    ends(&u::QUOTE_PRICE),
    ends(&u::QUOTE_PRICE),
];

/// The ends of a move's numbers, the id first.
pub const MOVE: [Ends; 2] = [ends(&u::ID), FLAG];

/// The ends of the gateway's values.
pub const GATEWAY_RATE: [Ends; 3] = [(0, u::TARGET_MAX), ends(&u::DAYS_CLOSED), (1, 3)];
pub const GATEWAY_RANGE: [Ends; 3] = [ends(&u::PRICE), ends(&u::RATE), FLAG];
pub const GATEWAY_BAND: [Ends; 6] = [
    ends(&u::PRICE),
    ends(&u::RATE),
    ends(&u::DAYS_AHEAD),
    ends(&u::REPO_RATE),
    ends(&u::MOVE_COUNT),
    FLAG,
];

/// A value at, just inside, just past or far past the ends of a range.
pub fn edge(random: &mut Random, (low, high): Ends, current: i64) -> i64 {
    match random.below(20) {
        0..=2 => low,
        3..=5 => high,
        6..=8 => low - 1,
        9..=11 => high + 1,
        12 => low + 1,
        13 => high - 1,
        14 => current.saturating_add(1),
        15 => current.saturating_sub(1),
        16 => current.saturating_neg(),
        17 => current.wrapping_add(random.pick(&[1 << 8, 1 << 16, 1 << 31, 1 << 32, 1 << 62])),
        _ => random.pick(&[i64::MIN, i64::MIN + 1, i64::MAX, i64::MAX - 1, 0, -1]),
    }
}

/// How many values an unsettled call has: mostly one.
pub fn unsettled_count(random: &mut Random) -> usize {
    random.pick(&[1, 1, 1, 1, 1, 1, 1, 2, 2, 3])
}

/// Two neighbours between `one` and `other` at which the watched outcome
/// differs; none where it is the same at both.
pub fn neighbours<T: PartialEq>(
    one: i64,
    other: i64,
    mut watch: impl FnMut(i64) -> T,
) -> Option<(i64, i64)> {
    let (mut low, mut high) = (one.min(other), one.max(other));
    let below = watch(low);
    if below == watch(high) {
        return None;
    }
    while high - low > 1 {
        let middle = low + (high - low) / 2;
        if watch(middle) == below {
            low = middle;
        } else {
            high = middle;
        }
    }
    Some((low, high))
}
