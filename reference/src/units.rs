//! Units and their ranges (document 01, "Units and ranges").

use std::ops::RangeInclusive;

/// A range of the paper, both ends inside.
pub type Range = RangeInclusive<i64>;

/// A price, in ten-thousandths of a rouble.
pub const PRICE: Range = 1..=10_000_000_000;
/// A rate, in basis points.
pub const RATE: Range = 0..=10_000;
/// The volatility s, in millionths.
pub const VOLATILITY: Range = 0..=1_000_000;
/// A repo rate, in basis points.
pub const REPO_RATE: Range = -9_999..=9_999;
/// The most that q and s can give t, in basis points: ten times 100 per cent.
pub const TARGET_MAX: i64 = 100_000;
/// A tentative rate whatever its step, in basis points (W-208): a step may take
/// it up to 999 above what q and s can give.
pub const TENTATIVE: Range = 0..=100_999;
/// An id.
pub const ID: Range = 1..=1_000_000_000;
/// A day number.
pub const DAY_NUMBER: Range = 0..=1_000_000;
/// A second of the session.
pub const SECOND: Range = 0..=86_399;
/// The moves of one side since the evaluation, c, of both sessions together.
pub const MOVE_COUNT: Range = 0..=50;
/// Moves of an evening, of both sides together, and the most of them (W-210).
pub const EVENING_MOVES: Range = 0..=10;
/// Trading days since the tentative rate last changed.
pub const AGE: Range = 0..=250;
/// Days of a term, k, and days of a row, T.
pub const DAYS_AHEAD: Range = 0..=30;
/// Non-trading days between days i-2 and i, b.
pub const DAYS_BETWEEN: Range = 0..=30;
/// Non-trading days ahead, m.
pub const DAYS_CLOSED: Range = 0..=10;
/// A central rate, in ten-thousandths (the rouble is 10,000).
pub const CENTRAL_RATE: Range = 1..=10_000_000;
/// A row's close, bid or ask; 0 means missing.
pub const ROW_PRICE: Range = 0..=10_000_000_000;
/// A row's volume in thousands; 0 means no trade.
pub const ROW_VOLUME: Range = 0..=100_000_000;
/// A quote's bid or ask; 0 means missing.
pub const QUOTE_PRICE: Range = 0..=100_000_000_000;
/// Days of a key maturity or of a pair's term.
pub const MATURITY_DAYS: Range = 0..=365;
/// MMΔ, SECΔ and the liquidity of repo, in basis points.
pub const INTEREST_MINIMUM: Range = 0..=9_999;
/// The volatility of a repo rate, in basis points: twice the greatest rate.
pub const INTEREST_VOLATILITY: Range = 0..=19_998;
/// The tentative interest rate, in basis points: the greatest multiplier of the
/// greatest volatility, up to the greatest step.
pub const INTEREST_TENTATIVE: Range = 0..=200_979;
/// A bond's net evaluation, in hundredths of a per cent of its face value.
pub const NET: Range = 1..=30_000;
/// A bond's face value, its accrued interest or a cash flow, in units.
pub const BOND_MONEY: Range = 0..=10_000_000_000;
/// The day of a cash flow.
pub const FLOW_DAY: Range = 1..=30;
/// An outside bid or ask that a record keeps; 0 means none (W-211).
pub const OUTSIDE_PRICE: Range = 0..=10_000_000_000;
/// A range or band limit that a record may hold.
pub const LIMIT: Range = 0..=2_020_000_000_000;

/// 100 per cent in basis points.
pub const ONE_IN_BP: i128 = 10_000;
/// One in ten-thousandths.
pub const ONE_IN_TEN_THOUSANDTHS: i128 = 10_000;
/// One in hundredths.
pub const ONE_IN_HUNDREDTHS: i128 = 100;
/// One in millionths.
pub const ONE_IN_MILLIONTHS: i128 = 1_000_000;
/// 100 per cent in hundredths of a per cent.
pub const ONE_IN_HUNDREDTHS_OF_A_PER_CENT: i128 = 10_000;
/// Millionths in a basis point.
pub const MILLIONTHS_IN_BP: i64 = 100;
/// A year of 365 days at 100 per cent, in days times basis points: the
/// 36,500 of a rate in per cent.
pub const YEAR_IN_DAY_BP: i128 = 3_650_000;
