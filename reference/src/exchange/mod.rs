//! The exchange's evening text (W-203): a line a row, eight fields split by
//! semicolons, read for one security. It goes over the bytes once, and a byte
//! that does not fit makes its line the first bad one.

pub mod index;
pub mod plain;

use std::fmt;
use std::io::{self, BufRead, Read};

use crate::evaluation::{ROW, ROWS_MAX};
use crate::refusal::Refusal;
use crate::units::{Range, CENTRAL_RATE, DAYS_AHEAD, ID, REPO_RATE, ROW_PRICE, ROW_VOLUME};

/// The most bytes of a text.
pub const TEXT_MAX: usize = 65_536;
/// The line at which a longer text is bad.
pub const TOO_LONG: usize = 0;
/// Every number above it is as far out of every range as itself, with four
/// decimals or without.
const FAR: i64 = 1_000_000_000_000;
/// Decimals of a rouble and of a central rate.
const PRICE_PLACES: u32 = 4;
/// Decimals of a repo rate in per cent.
const REPO_PLACES: u32 = 2;

/// The rows of one security, zeros past the last.
#[derive(Clone, Debug, PartialEq, Eq)]
pub struct Rows {
    numbers: [i64; ROWS_MAX],
    count: usize,
}

/// A bad line, counted from 1; 0 where the text is too long.
#[derive(Clone, Copy, Debug, PartialEq, Eq)]
pub struct BadLine(pub usize);

/// What the text says of a security.
pub type Reading = Result<Rows, BadLine>;

impl Rows {
    pub const NONE: Rows = Rows {
        numbers: [0; ROWS_MAX],
        count: 0,
    };

    pub fn count(&self) -> usize {
        self.count
    }

    /// The numbers of the rows, seven to a row, as an evaluation takes them.
    pub fn numbers(&self) -> &[i64] {
        &self.numbers[..ROW * self.count]
    }

    /// Adds a row; none where there is no room for it.
    pub fn push(&mut self, row: &[i64; ROW]) -> Option<()> {
        let start = ROW * self.count;
        let place = self.numbers.get_mut(start..start + ROW)?;
        place.copy_from_slice(row);
        self.count += 1;
        Some(())
    }
}

/// Reads the rows of a security, in order. An id that is no security's has none.
pub fn read(text: &[u8], id: i64) -> Reading {
    if text.len() > TEXT_MAX {
        return Err(BadLine(TOO_LONG));
    }
    let mut cursor = Cursor { rest: text };
    let mut rows = Rows::NONE;
    let mut line = 0;
    while !cursor.rest.is_empty() {
        line += 1;
        let taken = cursor.line().and_then(
            |(of, row)| {
                if of == id {
                    rows.push(&row)
                } else {
                    Some(())
                }
            },
        );
        taken.ok_or(BadLine(line))?;
    }
    Ok(rows)
}

/// What is left of the text.
pub struct Cursor<'t> {
    pub rest: &'t [u8],
}

impl Cursor<'_> {
    /// A line with its end: the id and the row. None where it is bad.
    pub fn line(&mut self) -> Option<(i64, [i64; ROW])> {
        let id = self.whole(&ID)?;
        self.semicolon()?;
        let days = self.whole(&DAYS_AHEAD)?;
        self.semicolon()?;
        let central_rate = self.central_rate()?;
        self.semicolon()?;
        let repo_rate = self.repo_rate()?;
        self.semicolon()?;
        let close = self.price()?;
        self.semicolon()?;
        let bid = self.price()?;
        self.semicolon()?;
        let ask = self.price()?;
        self.semicolon()?;
        let volume = self.whole(&ROW_VOLUME)?;
        self.take(b'\r');
        if !self.take(b'\n') || (volume != 0 && close == 0) {
            return None;
        }
        let row = [days, central_rate, repo_rate, close, bid, ask, volume];
        Some((id, row))
    }

    /// Takes a byte, if it is the next.
    fn take(&mut self, byte: u8) -> bool {
        match self.rest {
            [next, rest @ ..] if *next == byte => {
                self.rest = rest;
                true
            }
            _ => false,
        }
    }

    fn semicolon(&mut self) -> Option<()> {
        self.take(b';').then_some(())
    }

    fn digit(&mut self) -> Option<i64> {
        match self.rest {
            [digit @ b'0'..=b'9', rest @ ..] => {
                self.rest = rest;
                Some(i64::from(digit - b'0'))
            }
            _ => None,
        }
    }

    /// One digit or more.
    fn digits(&mut self) -> Option<i64> {
        let mut value = self.digit()?;
        while let Some(digit) = self.digit() {
            value = (10 * value + digit).min(FAR);
        }
        Some(value)
    }

    fn whole(&mut self, range: &Range) -> Option<i64> {
        within(range, self.digits()?)
    }

    /// A number with up to so many decimals, in units of the last; zeros may
    /// follow it where they are told to.
    fn decimal(&mut self, places: u32, zeros_follow: bool) -> Option<i64> {
        let mut value = self.digits()?;
        let mut left = places;
        if self.take(b'.') {
            value = 10 * value + self.digit()?;
            left -= 1;
            while left > 0 {
                match self.digit() {
                    Some(digit) => value = 10 * value + digit,
                    None => break,
                }
                left -= 1;
            }
            while zeros_follow && left == 0 && self.take(b'0') {}
        }
        Some(value * 10_i64.pow(left))
    }

    fn central_rate(&mut self) -> Option<i64> {
        within(&CENTRAL_RATE, self.decimal(PRICE_PLACES, false)?)
    }

    fn repo_rate(&mut self) -> Option<i64> {
        let is_negative = self.take(b'-');
        let rate = self.decimal(REPO_PLACES, false)?;
        within(&REPO_RATE, if is_negative { -rate } else { rate })
    }

    /// A close, bid or ask; nothing is 0.
    fn price(&mut self) -> Option<i64> {
        match self.rest {
            [b';', ..] => Some(0),
            _ => within(&ROW_PRICE, self.decimal(PRICE_PLACES, true)?),
        }
    }
}

fn within(range: &Range, value: i64) -> Option<i64> {
    range.contains(&value).then_some(value)
}

/// The id that a word asks for: digits alone. One that no security has may be
/// of any size.
pub fn asked_id(word: &[u8]) -> Option<i64> {
    let mut cursor = Cursor { rest: word };
    let id = cursor.digits()?;
    cursor.rest.is_empty().then_some(id)
}

/// A reading as it is printed: `0 COUNT` and the rows, or `15 LINE`.
pub struct Printed(pub Reading);

impl fmt::Display for Printed {
    fn fmt(&self, f: &mut fmt::Formatter<'_>) -> fmt::Result {
        match &self.0 {
            Ok(rows) => {
                write!(f, "0 {}", rows.count())?;
                let mut numbers = rows.numbers().iter();
                numbers.try_for_each(|number| write!(f, " {number}"))
            }
            Err(bad) => bad.fmt(f),
        }
    }
}

impl fmt::Display for BadLine {
    fn fmt(&self, f: &mut fmt::Formatter<'_>) -> fmt::Result {
        write!(f, "{} {}", Refusal::BadLine.number(), self.0)
    }
}

/// Takes a text of at most so many bytes from an input: no more of it than tells
/// that it is too long.
pub fn taken(input: impl BufRead, most: usize) -> io::Result<Vec<u8>> {
    let mut text = Vec::with_capacity(most + 2);
    input.take(most as u64 + 1).read_to_end(&mut text)?;
    Ok(text)
}
