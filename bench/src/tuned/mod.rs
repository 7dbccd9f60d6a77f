//! One evaluation in Rust, as fast as we could make it: the rival of the proved rules (W-214). The reference is an
//! oracle with 128-bit numbers everywhere; here a number has 64 bits where the ranges allow it, the grid is a constant,
//! several numbers that have a divisor in common share one division, and the root and the rates of the levels are
//! guessed and then checked. Each file says why its shortcuts give the reference's figures, and `cargo test` compares
//! the two on random days.
//!
//! Document 01 with W-202, W-205 and W-208 to W-211. The record is the reference's own, and is changed in its place.
//! The rival of the text (`crate::evening`) evaluates by it, and its moves use the roundings of `limits`.

mod divisor;
mod levels;
pub(crate) mod limits;
mod rates;
mod rows;
mod soundness;
#[cfg(test)]
mod tests;

use reference::record::{Record, Session, Standing, Term};
use reference::refusal::Refusal;
use reference::security::Day;
use reference::statics::Statics;
use reference::units::{Range, DAYS_BETWEEN, DAYS_CLOSED, DAY_NUMBER};

use limits::{Band, RangeLimits};
use rates::Rated;

/// Whether a number is in a range of the paper, with one comparison: a number below the start wraps to a great one.
#[inline(always)]
pub(crate) fn within(range: &Range, x: i64) -> bool {
    x.wrapping_sub(*range.start()) as u64 <= (*range.end() - *range.start()) as u64
}

/// Evaluates a record in its place: refused 1, 6, 16, 5, 7, 8, 9, the first that applies, and then it stays as it is.
///
/// The grid (10.1) is a constant of each of the three versions, so that no rounding to it and no test of it divides. A
/// lot that is out of range is refused 1 in whichever version it falls.
pub fn evaluate(record: &mut Record, day: &Day) -> Result<(), Refusal> {
    match record.statics.lot {
        i64::MIN..=1 => evaluate_on::<100>(record, day),
        2..=10 => evaluate_on::<10>(record, day),
        _ => evaluate_on::<1>(record, day),
    }
}

/// What an evaluation makes.
struct Made {
    p: i64,
    rated: Rated,
    ranges: [RangeLimits; 3],
    bands: [Band; 3],
}

#[inline(always)]
fn evaluate_on<const GRID: u64>(record: &mut Record, day: &Day) -> Result<(), Refusal> {
    if !soundness::is_sound::<GRID>(record) {
        return Err(Refusal::NoSuchId);
    }
    let made = made::<GRID>(record, day)?;
    write(record, day, &made);
    Ok(())
}

/// The rows are walked once: what a row is refused for beside 6 is kept until the refusals before it are judged.
#[inline(always)]
fn made<const GRID: u64>(record: &Record, day: &Day) -> Result<Made, Refusal> {
    let book = match rows::gather(day.rows) {
        Some(book) if numbers_are_in_range(day) => book,
        _ => return Err(Refusal::ValueOutOfRange),
    };
    if book.is_crossed() {
        return Err(Refusal::CrossedRow);
    }
    if day.number <= record.last_day() {
        return Err(Refusal::DayNotAfterLast);
    }
    let p = book
        .evaluation::<GRID>(record.taken_outside(), record.p1)
        .ok_or(Refusal::EvaluationOutOfRange)?;
    let rated = rates::after_day(record, day, p).ok_or(Refusal::MoveTooGreat)?;
    let statics = &record.statics;
    let bands = limits::bands::<GRID>(statics, p, rated.rates[0], &day.terms);
    if bands.iter().any(Band::is_crossed) {
        return Err(Refusal::BandCrossed);
    }
    let ranges = rated.rates.map(|rate| limits::range::<GRID>(p, rate));
    Ok(Made {
        p,
        rated,
        ranges,
        bands,
    })
}

/// What a day gives beside its rows.
#[inline(always)]
fn numbers_are_in_range(day: &Day) -> bool {
    within(&DAY_NUMBER, day.number)
        & within(&DAYS_BETWEEN, day.days_between)
        & within(&DAYS_CLOSED, day.days_closed)
        & day
            .terms
            .iter()
            .all(|term| soundness::is_repo_term(term.days, term.rrcl, term.rrch))
}

/// The record after the day. Its id, statics and outside prices stay.
#[inline(always)]
fn write(record: &mut Record, day: &Day, made: &Made) {
    record.standing = Standing::Live(day.number);
    record.p2 = record.p1;
    record.p1 = made.p;
    record.s = made.rated.s;
    record.tentative = made.rated.tentative;
    record.age = made.rated.age;
    record.rates = made.rated.rates;
    record.upper = made.ranges.map(|range| range.upper);
    record.lower = made.ranges.map(|range| range.lower);
    for level in 0..record.terms.len() {
        let (term, band) = (&day.terms[level], &made.bands[level]);
        record.terms[level] = Term {
            days: term.days,
            rrcl: term.rrcl,
            rrch: term.rrch,
            lower: band.lower,
            upper: band.upper,
            near_top: None,
            near_bottom: None,
        };
    }
    record.moves_upper = 0;
    record.moves_lower = 0;
    record.last_second = 0;
    record.session = Session::Main;
}

/// The step h of a security's rates.
fn step(statics: &Statics) -> divisor::Step {
    divisor::Step::new(statics.step as u64)
}
