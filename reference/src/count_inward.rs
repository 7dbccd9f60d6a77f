//! Counts how often a script of the evening meets each edge of W-209 for shares:
//! a band limit at a multiple of the grid, a part above it and a part below it,
//! on each grid, and bands that cross only since their limits go inward.

use std::io::{self, BufRead};

use crate::count::Count;
use crate::count_bond::Beside;
use crate::exact::{Quotient, Way};
use crate::limits::{exact_band_limit, BandInputs};
use crate::record::{Record, Side, Term};
use crate::replay::{evaluations, moves, Evaluation};
use crate::security::made;
use crate::statics::Statics;
use crate::tally::Tally;

/// The grids, in units.
const GRIDS: [i64; 3] = [100, 10, 1];
const SIDES: [Side; 2] = [Side::Upper, Side::Lower];
/// Where a limit stands to a multiple of the grid.
const BESIDES: [Beside; 3] = [Beside::Whole, Beside::PartAbove, Beside::PartBelow];

/// A limit of an accepted evaluation, in steps of its grid.
fn limit_edge(grid: i64, side: Side, beside: Beside) -> String {
    format!("grid {grid}, {side:?} limit: {}", beside.name())
}

/// A band that is crossed, and would not be if its limits were half up.
fn crossed_edge(grid: i64) -> String {
    format!("9: grid {grid}, crossed since the limits go inward")
}

/// A band whose limits are one.
fn touching_edge(grid: i64) -> String {
    format!("grid {grid}, lower and upper limit equal")
}

/// A limit that a move made.
fn moved_edge(side: Side) -> String {
    format!("a moved {side:?} limit, and half up would tell")
}

fn every_edge() -> impl Iterator<Item = String> {
    let limits = GRIDS.iter().flat_map(|grid| {
        SIDES
            .iter()
            .flat_map(move |side| BESIDES.map(|beside| limit_edge(*grid, *side, beside)))
    });
    limits
        .chain(GRIDS.map(crossed_edge))
        .chain(GRIDS.map(touching_edge))
        .chain(SIDES.map(moved_edge))
}

/// The exact limit of a side of a record's term.
fn exact_limit(record: &Record, term: &Term, side: Side) -> Quotient {
    let (repo_rate, moves) = match side {
        Side::Upper => (term.rrch, record.moves_upper),
        Side::Lower => (term.rrcl, record.moves_lower),
    };
    let inputs = BandInputs {
        p: record.p1,
        s_1: record.rates[0],
        days: term.days,
        repo_rate,
        moves,
    };
    exact_band_limit(&record.statics, &inputs, side)
}

/// Whether a limit would be another if it were half up.
fn would_tell(statics: &Statics, limit: Quotient, side: Side) -> bool {
    let grid = statics.grid();
    limit.rounded_to(Way::HalfUp, grid) != limit.rounded_to(side.inward(), grid)
}

/// The edges of an accepted evaluation.
fn meet_limits(tally: &mut Tally, after: &Record) {
    let grid = after.statics.grid();
    for term in &after.terms {
        for side in SIDES {
            let limit = exact_limit(after, term, side).in_steps(grid);
            for beside in BESIDES.iter().filter(|beside| beside.is(limit)) {
                tally.meet(&limit_edge(grid, side, *beside));
            }
        }
        if term.lower == term.upper {
            tally.meet(&touching_edge(grid));
        }
    }
}

/// The edges of an evaluation that 9 refuses.
fn meet_crossed(tally: &mut Tally, made: &Record) {
    let grid = made.statics.grid();
    let is_inward = |term: &Term| {
        let half_up = |side: Side| exact_limit(made, term, side).half_up_to(grid);
        term.is_crossed() && half_up(Side::Lower) <= half_up(Side::Upper)
    };
    if made.terms.iter().any(is_inward) {
        tally.meet(&crossed_edge(grid));
    }
}

fn meet_evaluation(tally: &mut Tally, seen: &Evaluation) {
    match (seen.number, &seen.before, &seen.after) {
        (0, _, Some(after)) => meet_limits(tally, after),
        (9, Some(before), _) => {
            if let Ok(made) = made(before, &seen.asked.day()) {
                meet_crossed(tally, &made);
            }
        }
        _ => {}
    }
}

/// Counts the edges that a script meets.
pub fn count_inward(mut input: impl BufRead) -> io::Result<Count> {
    let mut script = Vec::new();
    input.read_to_end(&mut script)?;
    let mut tally = Tally::new(every_edge());
    evaluations(&script[..], |seen| meet_evaluation(&mut tally, seen))?;
    moves(&script[..], |side, after| {
        let limits = after.terms.iter();
        let mut limits = limits.map(|term| exact_limit(after, term, side));
        if limits.any(|limit| would_tell(&after.statics, limit, side)) {
            tally.meet(&moved_edge(side));
        }
    })?;
    Ok(tally.count())
}
