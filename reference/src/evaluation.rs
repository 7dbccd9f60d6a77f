//! A day's rows and the evaluation they give (document 01, "The evaluation
//! (6.1)").

use crate::exact::{narrow, wide, Quotient};
use crate::outside::Outside;
use crate::units::{
    CENTRAL_RATE, DAYS_AHEAD, ONE_IN_TEN_THOUSANDTHS, PRICE, REPO_RATE, ROW_PRICE, ROW_VOLUME,
    YEAR_IN_DAY_BP,
};

/// Numbers in a row.
pub const ROW: usize = 7;
/// Numbers in the most rows a day may give.
pub const ROWS_MAX: usize = 16 * ROW;
/// A price or a side that a row does not have.
const MISSING: i64 = 0;

/// One row of the day: T, central rate, repo rate, close, bid, ask, volume.
struct Row {
    days: i64,
    central_rate: i64,
    repo_rate: i64,
    close: i64,
    bid: i64,
    ask: i64,
    volume: i64,
}

impl Row {
    fn from_numbers(numbers: &[i64]) -> Row {
        Row {
            days: numbers[0],
            central_rate: numbers[1],
            repo_rate: numbers[2],
            close: numbers[3],
            bid: numbers[4],
            ask: numbers[5],
            volume: numbers[6],
        }
    }

    /// Every value in its range; a traded row needs a close.
    fn is_in_range(&self) -> bool {
        DAYS_AHEAD.contains(&self.days)
            && CENTRAL_RATE.contains(&self.central_rate)
            && REPO_RATE.contains(&self.repo_rate)
            && ROW_PRICE.contains(&self.close)
            && ROW_PRICE.contains(&self.bid)
            && ROW_PRICE.contains(&self.ask)
            && ROW_VOLUME.contains(&self.volume)
            && (self.volume == 0 || self.close != MISSING)
    }

    /// Bid and ask both present and the bid above the ask, as they are given
    /// (W-205).
    fn is_crossed(&self) -> bool {
        self.bid != MISSING && self.ask != MISSING && self.bid > self.ask
    }

    /// Place (a): a present price in roubles today, half up to a unit. The
    /// outer none is a result that is no price; the inner a missing price.
    fn in_roubles(&self, price: i64) -> Option<Option<i64>> {
        if price == MISSING {
            return Some(None);
        }
        let today = Quotient {
            numerator: wide(price) * wide(self.central_rate) * YEAR_IN_DAY_BP,
            denominator: ONE_IN_TEN_THOUSANDTHS
                * (YEAR_IN_DAY_BP + wide(self.days) * wide(self.repo_rate)),
        };
        let price = narrow(today.half_up());
        PRICE.contains(&price).then_some(Some(price))
    }

    /// Place (b): the volume in roubles, half up to a thousand.
    fn weight(&self) -> Option<i64> {
        let roubles = Quotient {
            numerator: wide(self.volume) * wide(self.central_rate),
            denominator: ONE_IN_TEN_THOUSANDTHS,
        };
        let weight = narrow(roubles.half_up());
        ROW_VOLUME.contains(&weight).then_some(weight)
    }
}

/// What the rows together say.
#[derive(Default)]
struct Market {
    /// The sum of close times weight, over rows with weight.
    turnover: i128,
    weight: i128,
    /// BID: the greatest row bid, then the greater of it and the outside one.
    bid: Option<i64>,
    /// ASK: the least row ask, then the lesser of it and the outside one.
    ask: Option<i64>,
}

/// The lesser of two prices, where both are present; else the one that is.
fn lesser(one: Option<i64>, other: Option<i64>) -> Option<i64> {
    match (one, other) {
        (Some(one), Some(other)) => Some(one.min(other)),
        (one, other) => one.or(other),
    }
}

/// A price where it is present.
fn present(price: i64) -> Option<i64> {
    Some(price).filter(|price| *price != MISSING)
}

impl Market {
    /// Takes one row in; none where a rounded figure is out of range.
    fn take(&mut self, row: &Row) -> Option<()> {
        let close = row.in_roubles(row.close)?;
        let bid = row.in_roubles(row.bid)?;
        let ask = row.in_roubles(row.ask)?;
        let weight = row.weight()?;
        if let Some(close) = close {
            self.turnover += wide(close) * wide(weight);
            self.weight += wide(weight);
        }
        self.bid = self.bid.max(bid);
        self.ask = lesser(self.ask, ask);
        Some(())
    }

    /// Takes outside prices in (W-211): they are roubles, and have no weight.
    fn take_outside(&mut self, outside: Outside) {
        self.bid = self.bid.max(present(outside.bid));
        self.ask = lesser(self.ask, present(outside.ask));
    }

    /// Place (c): the weighted close; none where no row has a weight.
    fn weighted_close(&self) -> Option<i64> {
        let mean = Quotient {
            numerator: self.turnover,
            denominator: self.weight,
        };
        (self.weight > 0).then(|| narrow(mean.half_up()))
    }

    /// The weighted close, or the previous evaluation.
    fn close(&self, previous: i64) -> i64 {
        self.weighted_close().unwrap_or(previous)
    }

    /// The close against BID and ASK: the median where both are present, also
    /// when BID > ASK.
    fn settled(&self, close: i64) -> i64 {
        match (self.bid, self.ask) {
            (Some(bid), Some(ask)) => median(bid, close, ask),
            (Some(bid), None) => close.max(bid),
            (None, Some(ask)) => close.min(ask),
            (None, None) => close,
        }
    }
}

fn median(a: i64, b: i64, c: i64) -> i64 {
    a.max(b).min(a.min(b).max(c))
}

/// Whether a day's rows have a permitted length.
pub fn is_row_length(rows: &[i64]) -> bool {
    rows.len() <= ROWS_MAX && rows.len() % ROW == 0
}

/// Whether a day's rows have a permitted length and every value in range.
pub fn rows_are_in_range(rows: &[i64]) -> bool {
    is_row_length(rows) && rows_out_of_range(rows).next().is_none()
}

/// The places of the rows of which a value is out of range.
pub fn rows_out_of_range(rows: &[i64]) -> impl Iterator<Item = usize> + '_ {
    places(rows, |row| !row.is_in_range())
}

/// The places of the crossed rows.
pub fn crossed_rows(rows: &[i64]) -> impl Iterator<Item = usize> + '_ {
    places(rows, Row::is_crossed)
}

/// The places of the rows in range of which a rounded price or volume does not
/// fit.
pub fn unfit_rows(rows: &[i64]) -> impl Iterator<Item = usize> + '_ {
    places(rows, |row| Market::default().take(row).is_none())
}

/// The places of the rows that are so, counted from 0.
fn places(rows: &[i64], is_so: fn(&Row) -> bool) -> impl Iterator<Item = usize> + '_ {
    let numbered = rows.chunks_exact(ROW).enumerate();
    let found = numbered.filter(move |(_, row)| is_so(&Row::from_numbers(row)));
    found.map(|(place, _)| place)
}

/// Whether some row is crossed; BID may stand above ASK across rows.
pub fn has_crossed_row(rows: &[i64]) -> bool {
    crossed_rows(rows).next().is_some()
}

/// What the rows together say; none where a rounded figure is out of range.
fn market(rows: &[i64]) -> Option<Market> {
    let mut market = Market::default();
    for row in rows.chunks_exact(ROW) {
        market.take(&Row::from_numbers(row))?;
    }
    Some(market)
}

/// The book's BID and ASK of rows in range, where they are present; none where a
/// rounded figure is out of range.
pub fn sides_in_roubles(rows: &[i64]) -> Option<(Option<i64>, Option<i64>)> {
    market(rows).map(|market| (market.bid, market.ask))
}

/// What the price before the grid is made of, and that price.
#[derive(Clone, Copy, Debug)]
pub struct Settled {
    /// The price before the grid.
    pub price: i64,
    /// The weighted close, where a row has a weight.
    pub close: Option<i64>,
    /// BID, where it is present.
    pub bid: Option<i64>,
    /// ASK, where it is present.
    pub ask: Option<i64>,
}

/// The price before the grid from rows in range and the outside prices that are
/// taken; none where a rounded figure of a row is out of range.
pub fn settled(rows: &[i64], outside: Outside, previous: i64) -> Option<Settled> {
    let mut market = market(rows)?;
    market.take_outside(outside);
    Some(Settled {
        price: market.settled(market.close(previous)),
        close: market.weighted_close(),
        bid: market.bid,
        ask: market.ask,
    })
}

/// The day's evaluation from rows in range and the outside prices that are
/// taken, place (d): half up to the grid. None where a rounded row price, the
/// evaluation or a rounded row volume falls outside its range (number 7).
pub fn evaluation(rows: &[i64], outside: Outside, previous: i64, grid: i64) -> Option<i64> {
    let settled = Quotient {
        numerator: wide(settled(rows, outside, previous)?.price),
        denominator: 1,
    };
    let price = settled.half_up_to(grid);
    PRICE.contains(&price).then_some(price)
}

#[cfg(test)]
mod tests {
    use super::*;

    #[test]
    fn the_median_is_the_middle_one_in_every_order() {
        for [a, b, c] in [
            [1, 2, 3],
            [1, 3, 2],
            [2, 1, 3],
            [2, 3, 1],
            [3, 1, 2],
            [3, 2, 1],
        ] {
            assert_eq!(median(a, b, c), 2);
        }
        assert_eq!(median(2, 2, 1), 2);
        assert_eq!(median(1, 2, 1), 1);
    }
}
