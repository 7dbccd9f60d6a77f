//! The rules of the calls that change one record (document 01, "Ranges, bands, alerts, moves"; W-210, W-211). Each
//! changes it in its place, in 64-bit numbers where the ranges allow it. A refusal leaves it as it is.

use reference::outside::{Outside, Quoted, FRACTION_BITS, ONE};
use reference::record::{Record, Session, Side};
use reference::refusal::Refusal;
use reference::security::{Alerts, Day, RepoTerm};
use reference::units::{MOVE_COUNT, PRICE, QUOTE_PRICE, SECOND};

use super::moves::limits_moved;
use crate::tuned::{self, within};

const ONE_IN_TEN_THOUSANDTHS: i64 = 10_000;

/// Takes a quote: refused 6, 10, 11, 13. The limits of a record are at most 2.02·10^12, so that what is compared fits
/// 64 bits.
#[inline(always)]
pub fn quote(
    record: &mut Record,
    second: i64,
    term: i64,
    bid: i64,
    ask: i64,
) -> Result<Alerts, Refusal> {
    let is_live = record.is_live();
    let u = record.near_seconds();
    let in_range = within(&SECOND, second) & within(&QUOTE_PRICE, bid) & within(&QUOTE_PRICE, ask);
    let term = match record.terms.get_mut(term as usize) {
        Some(term) if in_range => term,
        _ => return Err(Refusal::ValueOutOfRange),
    };
    if !is_live {
        return Err(Refusal::NotLive);
    }
    if !record.statics.monitoring {
        return Err(Refusal::NotMonitored);
    }
    if second < record.last_second {
        return Err(Refusal::EarlierSecond);
    }
    let reach = record.statics.nearness * (term.upper - term.lower);
    let is_within = |distance: i64| ONE_IN_TEN_THOUSANDTHS * distance < reach;
    let near = |since: Option<i64>, is_near: bool| is_near.then(|| since.unwrap_or(second));
    term.near_top = near(term.near_top, bid != 0 && is_within(term.upper - bid));
    term.near_bottom = near(term.near_bottom, ask != 0 && is_within(ask - term.lower));
    record.last_second = second;
    let is_alert = |since: Option<i64>| since.map_or(false, |since| second - since >= u);
    Ok(Alerts {
        top: is_alert(term.near_top),
        bottom: is_alert(term.near_bottom),
    })
}

/// Evaluates a day: refused 6, 16, 5, 7, 8, 9.
#[inline(always)]
pub fn evaluate(record: &mut Record, head: &[i64; 13], rows: &[i64]) -> Result<(), Refusal> {
    let [_, number, days_between, days_closed, terms @ ..] = *head;
    let term = |k: usize| RepoTerm {
        days: terms[3 * k],
        rrcl: terms[3 * k + 1],
        rrch: terms[3 * k + 2],
    };
    let day = Day {
        number,
        days_between,
        days_closed,
        terms: [term(0), term(1), term(2)],
        rows,
    };
    tuned::evaluate(record, &day)
}

/// Opens the evening: refused 10, 19.
pub fn open(record: &mut Record) -> Result<(), Refusal> {
    if !record.is_live() {
        return Err(Refusal::NotLive);
    }
    if record.session != Session::Main {
        return Err(Refusal::OpenedTwice);
    }
    for term in &mut record.terms {
        term.near_top = None;
        term.near_bottom = None;
    }
    record.session = Session::Evening(0);
    Ok(())
}

/// Moves one side: refused 6, 10, 11, 18, 12.
pub fn move_side(record: &mut Record, side: i64) -> Result<(), Refusal> {
    let side = Side::from_number(side).ok_or(Refusal::ValueOutOfRange)?;
    if !record.is_live() {
        return Err(Refusal::NotLive);
    }
    if !record.statics.monitoring {
        return Err(Refusal::NotMonitored);
    }
    let session = match record.session {
        Session::Main => Session::Main,
        Session::Evening(made)
            if record.statics.autochange && made < record.statics.evening_maximum =>
        {
            Session::Evening(made + 1)
        }
        Session::Evening(_) => return Err(Refusal::NoEveningMove),
    };
    let moves = match side {
        Side::Upper => &mut record.moves_upper,
        Side::Lower => &mut record.moves_lower,
    };
    if *moves == *MOVE_COUNT.end() {
        return Err(Refusal::MovesExhausted);
    }
    *moves += 1;
    record.session = session;
    limits_moved(record, side);
    Ok(())
}

/// Takes an outside bid and ask: refused 20.
pub fn send(record: &mut Record, bid: i64, ask: i64) -> Result<(), Refusal> {
    let pair = price_of(bid).zip(price_of(ask));
    let (bid, ask) = pair.ok_or(Refusal::NoOutsidePrice)?;
    record.outside = Outside { bid, ask };
    Ok(())
}

/// Takes a notice of one side: refused 6, 20.
pub fn notice(record: &mut Record, side: i64, bits: i64) -> Result<(), Refusal> {
    let side = Quoted::from_number(side).ok_or(Refusal::ValueOutOfRange)?;
    let price = price_of(bits).ok_or(Refusal::NoOutsidePrice)?;
    record.outside = side.changed(record.outside, price);
    Ok(())
}

pub fn withdraw(record: &mut Record) -> Result<(), Refusal> {
    record.outside = Outside::NONE;
    Ok(())
}

/// The price of a float, half up to a unit, without a division: the float is so many steps of a power of two. Steps of
/// 2^-68 of a rouble make less than half a unit and steps of a rouble too much, and a float between is a normal one.
fn price_of(bits: i64) -> Option<i64> {
    // With the sign above it, the exponent of a float below zero is above all.
    let exponent = bits as u64 >> FRACTION_BITS;
    let power = (ONE as u64 + u64::from(FRACTION_BITS)).checked_sub(exponent)?;
    if !(1..68).contains(&power) {
        return None;
    }
    let one = 1_u64 << FRACTION_BITS;
    let steps = one | (bits as u64 & (one - 1));
    let units = u128::from(steps) * ONE_IN_TEN_THOUSANDTHS as u128;
    let price = ((units >> (power - 1)) + 1) >> 1;
    let price = i64::try_from(price).ok()?;
    within(&PRICE, price).then_some(price)
}
