//! The rule of each call for one security: the record before and the inputs
//! in, the record after out.

use crate::evaluation::{evaluation, has_crossed_row, rows_are_in_range};
use crate::ewma::Volatility;
use crate::exact::wide;
use crate::limits::{band_limit, delta, range_limit, BandInputs};
use crate::outside::{price_of, Outside, Quoted};
use crate::rates::{after_day, level_rates, DayMove};
use crate::record::{is_price, is_repo_term, is_tentative, Record, Session, Side, Standing, Term};
use crate::refusal::Refusal;
use crate::statics::{Statics, STATICS};
use crate::units::{
    DAYS_BETWEEN, DAYS_CLOSED, DAY_NUMBER, ID, MOVE_COUNT, ONE_IN_TEN_THOUSANDTHS, QUOTE_PRICE,
    SECOND, VOLATILITY,
};

/// What admission gives, as plain numbers.
#[derive(Clone, Copy, Debug)]
pub struct Admission {
    pub id: i64,
    pub day: i64,
    /// The later of the two latest evaluations.
    pub p1: i64,
    pub p2: i64,
    pub s: i64,
    pub tentative: i64,
    pub statics: [i64; STATICS],
}

/// What a day gives.
#[derive(Clone, Copy, Debug)]
pub struct Day<'a> {
    pub number: i64,
    /// b.
    pub days_between: i64,
    /// m.
    pub days_closed: i64,
    pub terms: [RepoTerm; 3],
    /// Seven numbers a row.
    pub rows: &'a [i64],
}

/// A term's days k and repo band.
#[derive(Clone, Copy, Debug)]
pub struct RepoTerm {
    pub days: i64,
    pub rrcl: i64,
    pub rrch: i64,
}

impl RepoTerm {
    pub fn is_in_range(&self) -> bool {
        is_repo_term(self.days, self.rrcl, self.rrch)
    }
}

/// A quote; 0 is a missing side.
#[derive(Clone, Copy, Debug)]
pub struct Quote {
    pub second: i64,
    pub term: i64,
    pub bid: i64,
    pub ask: i64,
}

/// The answer to a quote.
#[derive(Clone, Copy, Debug, PartialEq, Eq)]
pub struct Alerts {
    pub top: bool,
    pub bottom: bool,
}

/// The record of an admission; none where a value is out of range. The three
/// rates start at their minima, all else at 0, with no outside price.
pub fn admitted(admission: &Admission) -> Option<Record> {
    let statics = Statics::from_numbers(&admission.statics)?;
    let in_range = ID.contains(&admission.id)
        && DAY_NUMBER.contains(&admission.day)
        && is_price(&statics, admission.p1)
        && is_price(&statics, admission.p2)
        && VOLATILITY.contains(&admission.s)
        && is_tentative(&statics, admission.tentative);
    in_range.then_some(Record {
        id: admission.id,
        statics,
        standing: Standing::Admitted(admission.day),
        p1: admission.p1,
        p2: admission.p2,
        s: admission.s,
        tentative: admission.tentative,
        rates: statics.minima,
        ..Record::EMPTY
    })
}

impl Day<'_> {
    /// Every value in its range, the rows' too.
    pub fn is_in_range(&self) -> bool {
        DAY_NUMBER.contains(&self.number)
            && DAYS_BETWEEN.contains(&self.days_between)
            && DAYS_CLOSED.contains(&self.days_closed)
            && self.terms.iter().all(RepoTerm::is_in_range)
            && rows_are_in_range(self.rows)
    }
}

/// The record after a day: refused 6, 16, 5, 7, 8, 9, the first that applies.
pub fn evaluated(record: &Record, day: &Day) -> Result<Record, Refusal> {
    if !day.is_in_range() {
        return Err(Refusal::ValueOutOfRange);
    }
    if has_crossed_row(day.rows) {
        return Err(Refusal::CrossedRow);
    }
    if day.number <= record.last_day() {
        return Err(Refusal::DayNotAfterLast);
    }
    worked_out(record, day)
}

/// The record after a day that is in range: refused 7, 8, 9.
pub fn worked_out(record: &Record, day: &Day) -> Result<Record, Refusal> {
    let after = made(record, day)?;
    if after.terms.iter().any(Term::is_crossed) {
        return Err(Refusal::BandCrossed);
    }
    Ok(after)
}

/// The record that a day in range makes, its bands crossed perhaps: refused 7,
/// 8. An evaluation clears both counts, all near seconds and the last quote
/// second, puts the record back in the main session and leaves the outside
/// prices.
pub fn made(record: &Record, day: &Day) -> Result<Record, Refusal> {
    let statics = &record.statics;
    let outside = record.taken_outside();
    let p = evaluation(day.rows, outside, record.p1, statics.grid())
        .ok_or(Refusal::EvaluationOutOfRange)?;
    let volatility = volatility_after(record, day, p)?;
    let rates = level_rates(statics, volatility.tentative, day.days_closed);
    Ok(Record {
        id: record.id,
        statics: *statics,
        standing: Standing::Live(day.number),
        p1: p,
        p2: record.p1,
        s: volatility.s,
        tentative: volatility.tentative,
        age: volatility.age,
        rates,
        upper: rates.map(|rate| range_limit(statics, p, rate, Side::Upper)),
        lower: rates.map(|rate| range_limit(statics, p, rate, Side::Lower)),
        terms: day
            .terms
            .map(|term| fresh_term(statics, p, rates[0], &term)),
        moves_upper: 0,
        moves_lower: 0,
        last_second: 0,
        session: Session::Main,
        outside: record.outside,
    })
}

fn volatility_after(record: &Record, day: &Day, p: i64) -> Result<Volatility, Refusal> {
    after_day(
        &record.statics,
        &record.volatility(),
        &day_move(record, day, p),
    )
}

/// What a day with evaluation P says to the rates.
pub fn day_move(record: &Record, day: &Day, p: i64) -> DayMove {
    DayMove {
        p,
        p1: record.p1,
        p2: record.p2,
        last_s_1: record.rates[0],
        days_between: day.days_between,
    }
}

/// A term at an evaluation, where c is 0 on both sides and nothing is near.
fn fresh_term(statics: &Statics, p: i64, s_1: i64, term: &RepoTerm) -> Term {
    let limit = |repo_rate, side| {
        let inputs = BandInputs {
            p,
            s_1,
            days: term.days,
            repo_rate,
            moves: 0,
        };
        band_limit(statics, &inputs, side)
    };
    Term {
        days: term.days,
        rrcl: term.rrcl,
        rrch: term.rrch,
        lower: limit(term.rrcl, Side::Lower),
        upper: limit(term.rrch, Side::Upper),
        near_top: None,
        near_bottom: None,
    }
}

impl Quote {
    /// The index of the quote's term, where every value is in range.
    fn term_in_range(&self, terms: usize) -> Option<usize> {
        let term = usize::try_from(self.term)
            .ok()
            .filter(|term| *term < terms)?;
        let in_range = SECOND.contains(&self.second)
            && QUOTE_PRICE.contains(&self.bid)
            && QUOTE_PRICE.contains(&self.ask);
        in_range.then_some(term)
    }
}

/// The record and the alerts after a quote: refused 6, 10, 11, 13, the first
/// that applies. One quote touches one term only.
pub fn quoted(record: &Record, quote: &Quote) -> Result<(Record, Alerts), Refusal> {
    let index = quote
        .term_in_range(record.terms.len())
        .ok_or(Refusal::ValueOutOfRange)?;
    if !record.is_live() {
        return Err(Refusal::NotLive);
    }
    if !record.statics.monitoring {
        return Err(Refusal::NotMonitored);
    }
    if quote.second < record.last_second {
        return Err(Refusal::EarlierSecond);
    }
    let mut after = *record;
    let term = &mut after.terms[index];
    let nearness = record.statics.nearness;
    term.near_top = near_since(term.near_top, is_near_top(term, quote, nearness), quote);
    term.near_bottom = near_since(
        term.near_bottom,
        is_near_bottom(term, quote, nearness),
        quote,
    );
    let alerts = Alerts {
        top: is_alert(term.near_top, quote, record.near_seconds()),
        bottom: is_alert(term.near_bottom, quote, record.near_seconds()),
    };
    after.last_second = quote.second;
    Ok((after, alerts))
}

/// Near the top: bid present and PcH - bid strictly less than w·(PcH - PcL).
fn is_near_top(term: &Term, quote: &Quote, nearness: i64) -> bool {
    quote.bid != 0 && is_within(term.upper - quote.bid, term, nearness)
}

/// Near the bottom: ask present and ask - PcL strictly less than
/// w·(PcH - PcL).
fn is_near_bottom(term: &Term, quote: &Quote, nearness: i64) -> bool {
    quote.ask != 0 && is_within(quote.ask - term.lower, term, nearness)
}

/// On signed numbers: either side may be below 0.
fn is_within(distance: i64, term: &Term, nearness: i64) -> bool {
    ONE_IN_TEN_THOUSANDTHS * wide(distance) < wide(nearness) * wide(term.upper - term.lower)
}

/// A near side keeps the second at which it became near; a quote that isn't
/// near clears it.
fn near_since(since: Option<i64>, near: bool, quote: &Quote) -> Option<i64> {
    near.then(|| since.unwrap_or(quote.second))
}

/// Near, and at least u seconds of the session since that second.
fn is_alert(since: Option<i64>, quote: &Quote, near_seconds: i64) -> bool {
    since.map_or(false, |since| quote.second - since >= near_seconds)
}

/// The record after its evening is opened: refused 10, 19, the first that
/// applies. It clears all near seconds and keeps all else: the limits, c and the
/// last quote second.
pub fn opened(record: &Record) -> Result<Record, Refusal> {
    if !record.is_live() {
        return Err(Refusal::NotLive);
    }
    if record.session != Session::Main {
        return Err(Refusal::OpenedTwice);
    }
    Ok(Record {
        terms: record.terms.map(|term| Term {
            near_top: None,
            near_bottom: None,
            ..term
        }),
        session: Session::Evening(0),
        ..*record
    })
}

/// Whether the session has a move (17.4): an evening has one with Autochange
/// yes, until its maximum is reached.
fn has_move(record: &Record) -> bool {
    let statics = &record.statics;
    match record.session {
        Session::Main => true,
        Session::Evening(made) => statics.autochange && made < statics.evening_maximum,
    }
}

/// The record after a move of one side: refused 6, 10, 11, 18, 12, the first
/// that applies.
pub fn moved(record: &Record, side: i64) -> Result<Record, Refusal> {
    let side = Side::from_number(side).ok_or(Refusal::ValueOutOfRange)?;
    if !record.is_live() {
        return Err(Refusal::NotLive);
    }
    if !record.statics.monitoring {
        return Err(Refusal::NotMonitored);
    }
    if !has_move(record) {
        return Err(Refusal::NoEveningMove);
    }
    let moves = match side {
        Side::Upper => record.moves_upper,
        Side::Lower => record.moves_lower,
    };
    if moves == *MOVE_COUNT.end() {
        return Err(Refusal::MovesExhausted);
    }
    let after = match side {
        Side::Upper => moved_up(record, moves + 1),
        Side::Lower => moved_down(record, moves + 1),
    };
    Ok(Record {
        session: record.session.moved(),
        ..after
    })
}

fn moved_up(record: &Record, moves: i64) -> Record {
    let delta = delta(&record.statics, record.p1, record.rates[0]);
    Record {
        upper: record.upper.map(|limit| limit + delta),
        terms: record.terms.map(|term| Term {
            upper: remade(record, &term, term.rrch, moves, Side::Upper),
            near_top: None,
            ..term
        }),
        moves_upper: moves,
        ..*record
    }
}

/// Lower range limits stop at 0 (18.4).
fn moved_down(record: &Record, moves: i64) -> Record {
    let delta = delta(&record.statics, record.p1, record.rates[0]);
    Record {
        lower: record.lower.map(|limit| (limit - delta).max(0)),
        terms: record.terms.map(|term| Term {
            lower: remade(record, &term, term.rrcl, moves, Side::Lower),
            near_bottom: None,
            ..term
        }),
        moves_lower: moves,
        ..*record
    }
}

/// A term's band limit made again after `moves` moves of its side.
fn remade(record: &Record, term: &Term, repo_rate: i64, moves: i64, side: Side) -> i64 {
    let inputs = BandInputs {
        p: record.p1,
        s_1: record.rates[0],
        days: term.days,
        repo_rate,
        moves,
    };
    band_limit(&record.statics, &inputs, side)
}

/// The record after a bid and an ask sent together, which replace the pair:
/// refused 20, and then the pair stays.
pub fn sent(record: &Record, bid: i64, ask: i64) -> Result<Record, Refusal> {
    let outside = Outside::from_bits(bid, ask).ok_or(Refusal::NoOutsidePrice)?;
    Ok(Record { outside, ..*record })
}

/// The record after a notice of a bid, 0, or of an ask, 1: refused 6, 20, the
/// first that applies.
pub fn noticed(record: &Record, side: i64, bits: i64) -> Result<Record, Refusal> {
    let side = Quoted::from_number(side).ok_or(Refusal::ValueOutOfRange)?;
    let price = price_of(bits).ok_or(Refusal::NoOutsidePrice)?;
    Ok(Record {
        outside: side.changed(record.outside, price),
        ..*record
    })
}

/// The record after a withdrawal, which clears both sides.
pub fn withdrawn(record: &Record) -> Record {
    Record {
        outside: Outside::NONE,
        ..*record
    }
}
