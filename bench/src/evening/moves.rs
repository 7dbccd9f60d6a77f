//! What a move makes of a side's limits (document 01, "Ranges, bands, alerts, moves"; 18.4, W-209).

use reference::record::{Record, Side};
use reference::statics::Statics;

use crate::tuned::limits::{down_wide, farthest, growth, up_wide, YEAR};

const ONE_IN_BP: u64 = 10_000;
/// 1 of e, in hundredths.
const UNMOVED: u64 = 100;

/// Makes the limits of a side again, whose moves are counted already, and clears its near seconds.
pub fn limits_moved(record: &mut Record, side: Side) {
    match record.statics.lot {
        1 => moved_on::<100>(record, side),
        2..=10 => moved_on::<10>(record, side),
        _ => moved_on::<1>(record, side),
    }
}

fn moved_on<const GRID: u64>(record: &mut Record, side: Side) {
    let statics = &record.statics;
    let (p, s_1) = (record.p1 as u64, record.rates[0] as u64);
    let delta = delta::<GRID>(statics, p, s_1);
    let farthest = farthest::<GRID>(statics, p);
    // 1 ± e·S_1/x_pr over this is at most 1.11·10^8, so that P of it is at most 1.2·10^18.
    let one = ONE_IN_BP * statics.x_pr as u64;
    let divisor = one * YEAR as u64 * GRID;
    let spread = |moves: i64| (UNMOVED + 2 * (moves * statics.shift) as u64) * s_1;
    match side {
        Side::Upper => {
            let reach = p * (one + spread(record.moves_upper));
            for term in &mut record.terms {
                let limit = down_wide(reach, growth(term.rrch, term.days), divisor) * GRID;
                term.upper = (limit as i64).min(farthest.upper);
                term.near_top = None;
            }
            record.upper = record.upper.map(|limit| limit + delta);
        }
        Side::Lower => {
            let reach = p * one.saturating_sub(spread(record.moves_lower));
            for term in &mut record.terms {
                let limit = up_wide(reach, growth(term.rrcl, term.days), divisor) * GRID;
                term.lower = (limit as i64).max(farthest.lower);
                term.near_bottom = None;
            }
            record.lower = record.lower.map(|limit| (limit - delta).max(0));
        }
    }
}

/// 2·shift·S_1·P/x_pr, half up: the numerator is at most 2·10^16.
fn delta<const GRID: u64>(statics: &Statics, p: u64, s_1: u64) -> i64 {
    let whole = ONE_IN_BP * statics.x_pr as u64 * GRID;
    let shifted = 2 * statics.shift as u64 * s_1 * p;
    ((shifted + whole / 2) / whole * GRID) as i64
}
