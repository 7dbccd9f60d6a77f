//! Days with a row whose bid stands beside its ask (W-205), alone or together
//! with another refusal.

use crate::evaluation::ROW;
use crate::random::Random;
use crate::record::Record;
use crate::refusal::Refusal;
use crate::security::{worked_out, Day, RepoTerm};
use crate::units::{ONE_IN_TEN_THOUSANDTHS, REPO_RATE, ROW_PRICE};

use super::{day, edges};

/// Places of a row's numbers.
const DAYS: usize = 0;
const CENTRAL_RATE: usize = 1;
const CLOSE: usize = 3;
const BID: usize = 4;
const ASK: usize = 5;
const VOLUME: usize = 6;

/// The place of the day number among a day's numbers.
const NUMBER: usize = 1;
/// The first place of the terms.
const TERMS: usize = 4;
/// The rows of a full day.
const ROWS: usize = 16;
/// Attempts at a day that another refusal is due to.
const ATTEMPTS: usize = 12;

/// How a row's bid stands to its ask.
#[derive(Clone, Copy)]
pub enum Sides {
    OneBelow,
    Equal,
    OneAbove,
    FarAbove,
    /// Above it as given, and equal to it in roubles.
    EqualInRoubles,
    BidMissing,
    AskMissing,
}

impl Sides {
    pub const CROSSED: [Sides; 4] = [
        Sides::OneAbove,
        Sides::OneAbove,
        Sides::FarAbove,
        Sides::EqualInRoubles,
    ];
    pub const UNCROSSED: [Sides; 4] = [
        Sides::OneBelow,
        Sides::Equal,
        Sides::BidMissing,
        Sides::AskMissing,
    ];

    /// Gives a row its sides, near a price in roubles.
    fn give(self, random: &mut Random, row: &mut [i64], price: i64) {
        let most = *ROW_PRICE.end();
        let ask = price.clamp(2, most - 1);
        let (bid, ask) = match self {
            Sides::OneBelow => (ask - 1, ask),
            Sides::Equal => {
                let both = random.pick(&[ask, ask, ask, ask, most]);
                (both, both)
            }
            Sides::OneAbove => (ask + 1, ask),
            Sides::FarAbove => {
                let bid = random.pick(&[ask + ask / 20 + 2, most]).min(most);
                (bid, random.pick(&[ask - ask / 20, 1]))
            }
            Sides::EqualInRoubles => {
                // Half a rouble each: 2·P - 1 rounds up to P.
                let bid = 2 * ask.min(most / 2);
                row[CENTRAL_RATE] = ONE_IN_TEN_THOUSANDTHS as i64 / 2;
                row[CLOSE] = bid;
                (bid, bid - 1)
            }
            Sides::BidMissing => (0, ask),
            Sides::AskMissing => (ask, 0),
        };
        row[BID] = bid;
        row[ASK] = ask;
    }
}

/// A day of a record in which one row has the sides: the first, the last or one
/// between, of one, three, sixteen or any count of rows. The others are plain,
/// but for a second one now and then.
pub fn numbers(random: &mut Random, record: &Record, sides: Sides) -> Vec<i64> {
    day_at(random, record, sides, record.p1)
}

fn day_at(random: &mut Random, record: &Record, sides: Sides, price: i64) -> Vec<i64> {
    let mut numbers = day::bare(record.id, record.last_day() + 1);
    let any = 1 + random.below(ROWS);
    let count = random.pick(&[1, 3, 3, ROWS, ROWS, any]);
    let last = count - 1;
    let place = random.pick(&[0, last, last, last / 2]);
    let second = random.pick(&[place, place, place, place, last / 3]);
    for row in 0..count {
        let mut row_numbers = day::plain_row(random, price);
        if row == place || row == second {
            sides.give(random, &mut row_numbers, price);
        }
        numbers.extend(row_numbers);
    }
    numbers
}

/// A day with a crossed row that would otherwise be refused by the number; none
/// where the record has no such day, or none was found.
pub fn refused(random: &mut Random, record: &Record, refusal: Refusal) -> Option<Vec<i64>> {
    (0..ATTEMPTS).find_map(|_| {
        let numbers = attempt(random, record, refusal);
        let is_due = match refusal {
            Refusal::ValueOutOfRange | Refusal::DayNotAfterLast => true,
            _ => worked_out(record, &as_day(&numbers)).err() == Some(refusal),
        };
        is_due.then_some(numbers)
    })
}

fn attempt(random: &mut Random, record: &Record, refusal: Refusal) -> Vec<i64> {
    let sides = random.pick(&Sides::CROSSED[..3]);
    let far = record.p1.saturating_mul(5) / 2;
    let price = match refusal {
        Refusal::MoveTooGreat => far.min(*ROW_PRICE.end()),
        _ => record.p1,
    };
    let mut numbers = day_at(random, record, sides, price);
    let rows = edges::DAY.len();
    let row = rows + ROW * random.below((numbers.len() - rows) / ROW);
    match refusal {
        Refusal::ValueOutOfRange => match random.below(4) {
            0 => numbers[row + DAYS] = 31,
            1 => numbers[2] = 31,
            2 => numbers.push(0),
            _ => numbers[row + BID] = *ROW_PRICE.end() + 1,
        },
        Refusal::DayNotAfterLast => numbers[NUMBER] = record.last_day(),
        Refusal::EvaluationOutOfRange => {
            numbers[row + CENTRAL_RATE] = 1;
            numbers[row + CLOSE] = 1;
            numbers[row + VOLUME] = 0;
        }
        Refusal::BandCrossed => {
            let rate = random.pick(&[*REPO_RATE.start(), *REPO_RATE.end()]);
            let term = [30, rate, rate];
            numbers[TERMS..rows].copy_from_slice(&term.repeat(record.terms.len())[..]);
        }
        _ => {}
    }
    numbers
}

/// Plain numbers as a day.
fn as_day(numbers: &[i64]) -> Day<'_> {
    let (head, rows) = numbers.split_at(edges::DAY.len());
    let term = |first: usize| RepoTerm {
        days: head[first],
        rrcl: head[first + 1],
        rrch: head[first + 2],
    };
    Day {
        number: head[NUMBER],
        days_between: head[2],
        days_closed: head[3],
        terms: [term(TERMS), term(TERMS + 3), term(TERMS + 6)],
        rows,
    }
}

/// The day with the bid and the ask of every crossed row exchanged.
pub fn mended(numbers: &[i64]) -> Vec<i64> {
    let mut numbers = numbers.to_vec();
    for row in numbers[edges::DAY.len()..].chunks_exact_mut(ROW) {
        mend(row);
    }
    numbers
}

/// Exchanges the bid and the ask of a crossed row.
pub fn mend(row: &mut [i64]) {
    if row[ASK] != 0 && row[BID] > row[ASK] {
        row.swap(BID, ASK);
    }
}

/// Exchanges the bid and the ask of one row, as a typing error does.
pub fn exchange_columns(random: &mut Random, rows: &mut [i64]) {
    let count = rows.len() / ROW;
    if count > 0 {
        let first = ROW * random.below(count);
        rows.swap(first + BID, first + ASK);
    }
}
