//! The plain-number calls of the gateway (document 01, "What the desk
//! covers"): one figure each, or minus the refusal number.

use std::io::{self, BufRead, Write};

use crate::limits::{band_limit, range_limit, BandInputs};
use crate::rates;
use crate::record::{is_price, is_tentative, Side};
use crate::refusal::Refusal;
use crate::slices::split_last;
use crate::statics::{Statics, STATICS};
use crate::units::{DAYS_AHEAD, DAYS_CLOSED, MOVE_COUNT, RATE, REPO_RATE};
use crate::words::{number, serve, GATEWAY};

/// A static out of range, judged before every other value.
fn statics(numbers: &[i64; STATICS]) -> Result<Statics, Refusal> {
    Statics::from_numbers(numbers).ok_or(Refusal::AdmissionOutOfRange)
}

/// The index of a level given as 1, 2 or 3.
fn level_index(level: i64) -> Option<usize> {
    match level {
        1 => Some(0),
        2 => Some(1),
        3 => Some(2),
        _ => None,
    }
}

/// A level's rate from tentative, m and level.
pub fn level_rate(
    tentative: i64,
    m: i64,
    level: i64,
    numbers: &[i64; STATICS],
) -> Result<i64, Refusal> {
    let statics = statics(numbers)?;
    let level = level_index(level).ok_or(Refusal::ValueOutOfRange)?;
    if !is_tentative(&statics, tentative) || !DAYS_CLOSED.contains(&m) {
        return Err(Refusal::ValueOutOfRange);
    }
    Ok(rates::level_rate(&statics, level, tentative, m))
}

/// A fresh range limit from P, rate and side.
pub fn fresh_range_limit(
    p: i64,
    rate: i64,
    side: i64,
    numbers: &[i64; STATICS],
) -> Result<i64, Refusal> {
    let statics = statics(numbers)?;
    let side = Side::from_number(side).ok_or(Refusal::ValueOutOfRange)?;
    if !is_price(&statics, p) || !RATE.contains(&rate) {
        return Err(Refusal::ValueOutOfRange);
    }
    Ok(range_limit(&statics, p, rate, side))
}

/// A band limit from P, S_1, k, that side's repo rate, c and side.
pub fn plain_band_limit(
    inputs: &BandInputs,
    side: i64,
    numbers: &[i64; STATICS],
) -> Result<i64, Refusal> {
    let statics = statics(numbers)?;
    let side = Side::from_number(side).ok_or(Refusal::ValueOutOfRange)?;
    let in_range = is_price(&statics, inputs.p)
        && RATE.contains(&inputs.s_1)
        && DAYS_AHEAD.contains(&inputs.days)
        && REPO_RATE.contains(&inputs.repo_rate)
        && MOVE_COUNT.contains(&inputs.moves);
    if !in_range {
        return Err(Refusal::ValueOutOfRange);
    }
    Ok(band_limit(&statics, inputs, side))
}

/// The figure of a call, or minus the refusal number; none where a word and
/// its numbers name no call.
pub fn perform(verb: &[u8], numbers: &[i64]) -> Option<i64> {
    let (values, statics) = split_last::<STATICS, _>(numbers)?;
    let result = match (verb, values) {
        (b"rate", &[tentative, m, level]) => level_rate(tentative, m, level, statics),
        (b"range", &[p, rate, side]) => fresh_range_limit(p, rate, side, statics),
        (b"band", &[p, s_1, days, repo_rate, moves, side]) => {
            let inputs = BandInputs {
                p,
                s_1,
                days,
                repo_rate,
                moves,
            };
            plain_band_limit(&inputs, side, statics)
        }
        _ => return None,
    };
    Some(result.unwrap_or_else(|refusal| -refusal.number()))
}

/// Answers every line of the input.
pub fn gateway(input: impl BufRead, output: impl Write) -> io::Result<()> {
    serve(input, output, &GATEWAY, number, perform)
}
