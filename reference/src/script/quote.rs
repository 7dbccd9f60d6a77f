//! Quotes for a given record: bids and asks beside the edge of nearness,
//! seconds beside u of the session.

use crate::exact::wide;
use crate::random::Random;
use crate::record::{Record, Term};
use crate::units::{ONE_IN_TEN_THOUSANDTHS, QUOTE_PRICE, SECOND};

/// w·(PcH - PcL), whole units of it.
fn reach(record: &Record, term: &Term) -> i64 {
    let width = wide(term.upper - term.lower) * wide(record.statics.nearness);
    i64::try_from(width / ONE_IN_TEN_THOUSANDTHS).unwrap_or(0)
}

fn held(price: i64) -> i64 {
    price.clamp(0, *QUOTE_PRICE.end())
}

/// The least bid that is surely near the top: within the reach by a unit.
pub fn near_bid(record: &Record, term: usize) -> i64 {
    let term = &record.terms[term];
    held(term.upper - reach(record, term) + 1)
}

/// The greatest ask that is surely near the bottom.
pub fn near_ask(record: &Record, term: usize) -> i64 {
    let term = &record.terms[term];
    held(term.lower + reach(record, term) - 1)
}

/// A step beside an edge: none, a unit or a grid step either way.
fn step(random: &mut Random, grid: i64) -> i64 {
    random.pick(&[0, 0, 1, -1, -2, grid, -grid, grid - 1])
}

/// The numbers of a quote, in the order of the text protocol.
pub fn numbers(random: &mut Random, record: &Record) -> [i64; 5] {
    let index = random.below(record.terms.len());
    let term = &record.terms[index];
    let grid = record.statics.grid();
    let bid = match random.below(12) {
        0 | 1 => 0,
        2 => term.upper + step(random, grid),
        3 => random.between(0, held(2 * term.upper)),
        4 => random.pick(&[1, *QUOTE_PRICE.end()]),
        _ => near_bid(record, index) + step(random, grid),
    };
    let ask = match random.below(12) {
        0 | 1 => 0,
        2 => term.lower + step(random, grid),
        3 => random.between(0, held(2 * term.upper)),
        4 => random.pick(&[1, *QUOTE_PRICE.end()]),
        _ => near_ask(record, index) + step(random, grid),
    };
    let second = second(random, record, term);
    [record.id, second, index as i64, held(bid), held(ask)]
}

/// u of the record's session; now and then the other's.
pub fn wait(random: &mut Random, record: &Record) -> i64 {
    let statics = &record.statics;
    let other = random.pick(&[statics.near_seconds, statics.evening_seconds]);
    random.pick(&[record.near_seconds(), record.near_seconds(), other])
}

/// A second: soon after the last, u after a near second or one less, or
/// earlier than the last.
fn second(random: &mut Random, record: &Record, term: &Term) -> i64 {
    let last = record.last_second;
    let near = random.pick(&[term.near_top, term.near_bottom]);
    let wait = wait(random, record);
    let due = near.map_or(last, |since| since + wait);
    let second = match random.below(24) {
        0..=2 => last,
        3 => last - 1,
        4 => last - random.between(1, 100),
        5 if random.chance(10) => *SECOND.end(),
        6..=9 => due,
        10..=12 => due - 1,
        13 => due + 1,
        _ => last + random.between(0, 90),
    };
    second.clamp(*SECOND.start(), *SECOND.end())
}
