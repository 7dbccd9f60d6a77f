//! A day's rows in one walk, and the evaluation they give (6.1, places (a) to (d)).

use reference::evaluation::{is_row_length, ROW};
use reference::outside::Outside;
use reference::units::{
    CENTRAL_RATE, DAYS_AHEAD, PRICE, REPO_RATE, ROW_PRICE, ROW_VOLUME, YEAR_IN_DAY_BP,
};

use super::divisor::Divisor;
use super::within;

/// A rouble's central rate, in ten-thousandths.
const ROUBLE: u64 = 10_000;
const YEAR: i64 = YEAR_IN_DAY_BP as i64;
/// The days of a year, which are 3,650,000/10^4 of place (a).
const YEAR_DAYS: u64 = YEAR as u64 / ROUBLE;
const PRICE_MOST: u64 = *PRICE.end() as u64;
const VOLUME_MOST: u64 = *ROW_VOLUME.end() as u64;
/// A price times its central rate above this is above every price today, whatever the row's days and repo rate: it is
/// divided by at most 3,650,000 + 30·9,999 and multiplied by 365, which makes more than 1.01·10^10 of it. So a greater
/// product may be taken for this one, and 365 of it fit 64 bits.
const WORTH_MOST: u64 = 110_000_000_000_000;

/// What the rows together say.
#[derive(Clone, Copy)]
pub struct Book {
    /// Closes times weights: 16 rows make at most 16·10^10·10^8, which fits 64 bits.
    turnover: u64,
    weight: u64,
    /// BID, 0 where it is missing.
    bid: u64,
    /// ASK less 1, the greatest number where it is missing: so the lesser of two asks is the lesser number.
    ask_less_1: u64,
    is_crossed: bool,
    is_beyond: bool,
}

impl Book {
    const EMPTY: Book = Book {
        turnover: 0,
        weight: 0,
        bid: 0,
        ask_less_1: u64::MAX,
        is_crossed: false,
        is_beyond: false,
    };
}

/// Numbers of a row: T, central rate, repo rate, close, bid, ask, volume.
type Row = [i64; ROW];

/// Every value in its range, without a branch: a row nearly always is.
#[inline(always)]
fn is_in_range(row: &Row) -> bool {
    let [days, central_rate, repo_rate, close, bid, ask, volume] = *row;
    within(&DAYS_AHEAD, days)
        & within(&CENTRAL_RATE, central_rate)
        & within(&REPO_RATE, repo_rate)
        & within(&ROW_PRICE, close)
        & within(&ROW_PRICE, bid)
        & within(&ROW_PRICE, ask)
        & within(&ROW_VOLUME, volume)
        & ((volume == 0) | (close != 0))
}

/// Prices of a row today, by place (a): close, bid and ask, 0 where one is missing, and whether one that is present is
/// beyond a price.
struct Today {
    prices: [u64; 3],
    is_beyond: bool,
}

/// A missing price, 0, comes out as 0 by itself: half a divisor over it is 0. So one that is present and comes out as 0
/// is below every price.
#[inline(always)]
fn today(prices: [u64; 3], central_rate: u64, half_up: impl Fn(u64) -> u64) -> Today {
    let made = prices.map(|price| half_up((price * central_rate).min(WORTH_MOST)));
    let is_out = |k: usize| (made[k] > PRICE_MOST) | ((made[k] == 0) & (prices[k] != 0));
    Today {
        prices: made,
        is_beyond: is_out(0) | is_out(1) | is_out(2),
    }
}

impl Book {
    /// Takes in the row's figures in roubles today. A close that is missing has no weight, since its volume is 0.
    #[inline(always)]
    fn take(&mut self, prices: [u64; 3], weight: u64) {
        let [close, bid, ask] = prices;
        self.turnover = self.turnover.wrapping_add(close.wrapping_mul(weight));
        self.weight += weight;
        self.bid = self.bid.max(bid);
        self.ask_less_1 = self.ask_less_1.min(ask.wrapping_sub(1));
    }

    /// Takes in a row in range. Roubles today are what they are, and in range as they are given. On the day itself
    /// place (a) divides by 10^4 alone, and else its three prices share a divisor.
    #[inline(always)]
    fn take_row(&mut self, row: &Row) {
        let [days, central_rate, repo_rate, ..] = *row;
        let [close, bid, ask, volume] =
            [row[3] as u64, row[4] as u64, row[5] as u64, row[6] as u64];
        let prices = [close, bid, ask];
        self.is_crossed |= (ask != 0) & (bid > ask);
        let central_rate = central_rate as u64;
        if days == 0 && central_rate == ROUBLE {
            self.take(prices, volume);
            return;
        }
        let today = if days == 0 {
            today(prices, central_rate, |x| (x + ROUBLE / 2) / ROUBLE)
        } else {
            let divisor = Divisor::new((YEAR + days * repo_rate) as u64);
            today(prices, central_rate, |x| divisor.half_up(x * YEAR_DAYS))
        };
        let weight = (volume * central_rate + ROUBLE / 2) / ROUBLE;
        self.is_beyond |= today.is_beyond | (weight > VOLUME_MOST);
        self.take(today.prices, weight);
    }

    pub fn is_crossed(&self) -> bool {
        self.is_crossed
    }

    /// The weighted close, place (c), or the previous evaluation. The turnover and half the weight fit 64 bits.
    #[inline(always)]
    fn close(&self, previous: u64) -> u64 {
        let rounded = self.turnover + self.weight / 2;
        rounded.checked_div(self.weight).unwrap_or(previous)
    }

    /// The day's evaluation, place (d); none where a figure is out of range (7). Between BID and ASK is the median,
    /// also where BID is above ASK: a missing BID is below every price and a missing ASK above, so that the median is
    /// then the greater or the lesser of the other two.
    #[inline(always)]
    pub fn evaluation<const GRID: u64>(&self, outside: Outside, previous: i64) -> Option<i64> {
        if self.is_beyond {
            return None;
        }
        let close = self.close(previous as u64);
        let bid = self.bid.max(outside.bid as u64);
        let ask_less_1 = self.ask_less_1.min((outside.ask as u64).wrapping_sub(1));
        let ask = ask_less_1.saturating_add(1);
        let settled = bid.max(close).min(bid.min(close).max(ask));
        let p = (settled + GRID / 2) / GRID * GRID;
        within(&PRICE, p as i64).then_some(p as i64)
    }
}

/// What the rows together say; none where they are out of range (6), in length or in a number.
#[inline(always)]
pub fn gather(rows: &[i64]) -> Option<Book> {
    if !is_row_length(rows) {
        return None;
    }
    let mut book = Book::EMPTY;
    for row in rows.chunks_exact(ROW) {
        let row: &Row = row.try_into().ok()?;
        if !is_in_range(row) {
            return None;
        }
        book.take_row(row);
    }
    Some(book)
}
