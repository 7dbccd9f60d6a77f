//! Days for a given record: most are accepted, and many stand at an edge of
//! the evaluation, the move or the bands.

use crate::evaluation::{ROW, ROWS_MAX};
use crate::exact::{wide, Quotient};
use crate::random::Random;
use crate::record::Record;
use crate::units::{
    CENTRAL_RATE, DAY_NUMBER, MILLIONTHS_IN_BP, ONE_IN_MILLIONTHS, ONE_IN_TEN_THOUSANDTHS,
    ROW_PRICE, ROW_VOLUME, YEAR_IN_DAY_BP,
};

use super::{crossed, edges};

/// The rouble's central rate.
const ROUBLE: i64 = ONE_IN_TEN_THOUSANDTHS as i64;

/// A price above which rows of the greatest weight are tried.
const HEAVY_PRICE: i64 = *ROW_PRICE.end() / 3;

/// In how many of a hundred days the bid and the ask of a row are exchanged.
const EXCHANGED_PERCENT: usize = 2;

/// The numbers of a day for a record, in the order of the text protocol.
pub fn numbers(random: &mut Random, record: &Record) -> Vec<i64> {
    let mut numbers = vec![
        record.id,
        day_number(random, record.last_day()),
        random.pick(&[0, 0, 0, 0, 0, 0, 1, 1, 2, 3, 30]),
        random.pick(&[0, 0, 0, 0, 1, 3, 5, 6, 8, 9, 10]),
    ];
    for _ in 0..record.terms.len() {
        numbers.extend(term(random));
    }
    numbers.extend(rows(random, record));
    numbers
}

/// A day without rows, holidays or repo rates.
pub fn bare(id: i64, number: i64) -> Vec<i64> {
    let mut numbers = vec![id, number];
    numbers.resize(edges::DAY.len(), 0);
    numbers
}

/// The next day; now and then a later one, the last one again or an earlier.
fn day_number(random: &mut Random, last: i64) -> i64 {
    match random.below(50) {
        0 => last,
        1 => last - 1,
        2 => random.between(0, last),
        3 if random.chance(5) => *DAY_NUMBER.end(),
        4..=8 => last + random.between(1, 9),
        _ => last + 1,
    }
}

/// K RRCL RRCH with RRcL ≤ RRcH.
fn term(random: &mut Random) -> [i64; 3] {
    let days = match random.below(4) {
        0 => random.between(0, 30),
        _ => random.pick(&[0, 0, 1, 2, 29, 30]),
    };
    let (one, other) = match random.below(12) {
        0..=3 => (0, 0),
        4 => (-730, 1_460),
        5 => (-9_999, 9_999),
        6 => (-9_999, random.between(-9_999, -9_000)),
        7 => (random.between(9_000, 9_999), 9_999),
        8 => {
            let rate = random.between(-9_999, 9_999);
            (rate, rate)
        }
        9 => (random.between(-3_000, 0), random.between(0, 3_000)),
        _ => (random.between(-9_999, 9_999), random.between(-9_999, 9_999)),
    };
    [days, one.min(other), one.max(other)]
}

/// The price that the rows shall give, often at an edge of the move.
fn aim(random: &mut Random, record: &Record) -> i64 {
    let grid = record.statics.grid();
    let p = random.pick(&[record.p1, record.p1, record.p2]);
    let third = p / 3;
    let aim = match random.below(40) {
        0..=4 => p,
        5..=8 => beside_move(random, p, record.s, grid),
        9..=11 => beside_move(random, p, MILLIONTHS_IN_BP * record.rates[0], grid),
        12 => beside_move(random, p, record.s / 9 * 16, grid),
        13 | 14 => beside_move(random, p, ONE_IN_MILLIONTHS as i64, grid),
        15 | 16 => p + random.between(-third, third),
        17 => p + grid * random.between(-2, 2),
        18 => random.between(0, 2 * grid),
        19 if p > 4_000_000_000 => *ROW_PRICE.end() - random.between(0, 2 * grid),
        20..=22 if p < 1_000 * grid => 2 * p - grid,
        _ => p + random.between(-p / 32, p / 32),
    };
    let off_grid = random.pick(&[0, 0, 0, grid / 2, grid / 2 - 1, -grid / 2]);
    (aim + off_grid).clamp(1, *ROW_PRICE.end())
}

/// The last grid price whose move from `p` is at most `r` millionths, up or
/// down, or the first beyond it.
fn beside_move(random: &mut Random, p: i64, r: i64, grid: i64) -> i64 {
    let reach = wide(p) * wide(r) / ONE_IN_MILLIONTHS;
    let whole = i64::try_from(reach).unwrap_or(p) / grid * grid;
    let distance = whole + grid * random.pick(&[0, 0, 0, 1, 1, -1]);
    if random.chance(60) {
        p + distance
    } else {
        p - distance
    }
}

/// The rows of a day.
fn rows(random: &mut Random, record: &Record) -> Vec<i64> {
    let aim = aim(random, record);
    let count = match random.below(20) {
        0 | 1 => 0,
        2..=9 => 1,
        10..=13 => 2,
        14..=16 => 3 + random.below(13),
        _ => 16,
    };
    let heavy = aim > HEAVY_PRICE && random.chance(25);
    let kind = random.below(7);
    let mut rows = Vec::with_capacity(ROW * count);
    for _ in 0..count {
        rows.extend(match kind {
            _ if heavy => heavy_row(random, aim),
            0 | 1 => plain_row(random, aim),
            2 => quoted_row(random, aim),
            3 => tied_row(random, aim),
            4 => parted_row(random, aim),
            _ => foreign_row(random, aim),
        });
    }
    rows.chunks_exact_mut(ROW).for_each(crossed::mend);
    if random.chance(EXCHANGED_PERCENT) {
        crossed::exchange_columns(random, &mut rows);
    }
    if random.chance(8) {
        lengthen(random, &mut rows);
    }
    rows
}

/// Lengths that are refused, or stand beside one that is.
fn lengthen(random: &mut Random, rows: &mut Vec<i64>) {
    let row = plain_row(random, 1_000_000);
    let length = match random.below(4) {
        0 => 16 * ROW,
        1 => 17 * ROW,
        2 => rows.len() + random.below(ROW),
        _ => random.pick(&[1, 6, 8, 104, 111, 112, 113, 118, 126]),
    };
    rows.truncate(length);
    while rows.len() < length {
        rows.push(row[rows.len() % ROW]);
    }
}

/// A rouble row that trades at the price.
pub fn plain_row(random: &mut Random, price: i64) -> [i64; ROW] {
    let spread = random.between(0, price / 50 + 2);
    let volume = random.pick(&[1, 1, 2, 3, 8, 100, 300, 1_000_000]);
    let bid = random.pick(&[0, price, price - spread]).max(0);
    let ask = random
        .pick(&[0, price, price + spread])
        .min(*ROW_PRICE.end());
    [0, ROUBLE, 0, price, bid, ask, volume]
}

/// A rouble row that trades at the price and has no other.
pub fn traded_row(price: i64) -> [i64; ROW] {
    [0, ROUBLE, 0, price, 0, 0, 1]
}

/// A rouble row of the greatest weight.
fn heavy_row(random: &mut Random, price: i64) -> [i64; ROW] {
    let volume = *ROW_VOLUME.end() - random.between(0, 9);
    let close = (price + random.between(-9, 9)).min(*ROW_PRICE.end());
    [0, ROUBLE, 0, close, 0, 0, volume]
}

/// The most rows of the greatest price and weight.
pub fn heaviest_rows() -> Vec<i64> {
    [0, ROUBLE, 0, *ROW_PRICE.end(), 0, 0, *ROW_VOLUME.end()].repeat(ROWS_MAX / ROW)
}

/// A row without a trade; its bid and ask settle the evaluation.
fn quoted_row(random: &mut Random, price: i64) -> [i64; ROW] {
    let spread = random.between(-3, price / 20 + 2);
    let bid = random.pick(&[0, price, price, price - spread]);
    let ask = random.pick(&[0, price, price, price + spread]);
    let close = random.pick(&[0, 0, price]);
    let held = |price: i64| price.clamp(0, *ROW_PRICE.end());
    [0, ROUBLE, 0, close, held(bid), held(ask), 0]
}

/// A row whose bid and ask stand together above the price or below it, so that
/// across rows BID may be above ASK.
fn parted_row(random: &mut Random, price: i64) -> [i64; ROW] {
    let far = price / 100 + 2;
    let middle = price + random.between(-far, far);
    let spread = random.between(0, price / 400 + 1);
    let close = random.pick(&[0, price]);
    let held = |price: i64| price.clamp(1, *ROW_PRICE.end());
    let bid = random.pick(&[0, held(middle - spread), held(middle - spread)]);
    let ask = random.pick(&[0, held(middle + spread), held(middle + spread)]);
    let volume = if close == 0 { 0 } else { 1 };
    [0, ROUBLE, 0, close, bid, ask, volume]
}

/// A row whose price or volume rounds at or beside a tie: 3,650,000 over
/// 3,650,000 + 50,000·j is 73 over 73 + j.
fn tied_row(random: &mut Random, price: i64) -> [i64; ROW] {
    let odd = 2 * random.between(0, price / 100 + 1) + 1;
    let beside = random.pick(&[0, 0, 0, 1, -1]);
    if random.chance(50) {
        let j = random.pick(&[1, 3, -1, -3]);
        let days = random.pick(&[20, 25]);
        let repo_rate = 50_000 * j / days;
        let tied = ((73 + j) / 2 * odd + beside).clamp(1, *ROW_PRICE.end());
        return [days, ROUBLE, repo_rate, tied, 0, 0, random.between(0, 2)];
    }
    let central_rate = ROUBLE / 2 + beside;
    let tied = (2 * price + random.pick(&[1, 1, 0])).clamp(1, *ROW_PRICE.end());
    let quoted = random.pick(&[0, tied]);
    [0, central_rate, 0, tied, quoted, 0, random.between(0, 3)]
}

/// A row in any currency and term near a rouble price.
fn foreign_row(random: &mut Random, price: i64) -> [i64; ROW] {
    let central_rate = match random.below(8) {
        0 => random.any_size(*CENTRAL_RATE.end()).max(1),
        1 => random.pick(&[1, 4_999, 5_000, 5_001, 9_999_999, 10_000_000]),
        2 | 3 => random.pick(&[125_000, 900_000, 12_345, 9_999, 10_001]),
        _ => ROUBLE,
    };
    let days = random.pick(&[0, 0, 0, 1, 2, 29, 30]);
    let repo_rate = match random.below(4) {
        0 => random.pick(&[-9_999, 9_999, 1_825, -1]),
        _ => random.between(-3_000, 3_000),
    };
    let there = Quotient {
        numerator: wide(price)
            * ONE_IN_TEN_THOUSANDTHS
            * (YEAR_IN_DAY_BP + wide(days) * wide(repo_rate)),
        denominator: wide(central_rate) * YEAR_IN_DAY_BP,
    };
    let there = i64::try_from(there.half_up()).unwrap_or(i64::MAX);
    if there > *ROW_PRICE.end() {
        return plain_row(random, price);
    }
    let spread = random.between(-2, there / 50 + 2);
    let held = |price: i64| price.clamp(1, *ROW_PRICE.end());
    let bid = random.pick(&[0, held(there), held(there - spread)]);
    let ask = random.pick(&[0, held(there), held(there + spread)]);
    let volume = volume(random, central_rate);
    let close = if volume == 0 && random.chance(50) {
        0
    } else {
        held(there)
    };
    [days, central_rate, repo_rate, close, bid, ask, volume]
}

/// A volume: none, small, at the edge of no weight, or at the greatest weight.
fn volume(random: &mut Random, central_rate: i64) -> i64 {
    let volume = match random.below(60) {
        0..=11 => 0,
        12..=29 => random.between(1, 10),
        30 => ROUBLE * *ROW_VOLUME.end() / central_rate + random.between(-1, 1),
        31..=36 => ROUBLE / 2 / central_rate + random.between(0, 1),
        37 => *ROW_VOLUME.end(),
        _ => random.any_size(100_000),
    };
    volume.clamp(0, *ROW_VOLUME.end())
}
