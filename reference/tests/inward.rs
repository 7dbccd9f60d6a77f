//! W-209: the upper band limit is rounded down to the grid and the lower one up;
//! ranges, delta and the evaluation keep half up.

mod common;

use common::{admission, day, traded, z_with, LOT, MONITORING, NO_REPO, PCL_MAX, Z};
use reference::gateway::perform;
use reference::record::Record;
use reference::refusal::Refusal;
use reference::security::{admitted, evaluated, moved, Admission, Day, RepoTerm};

/// Places in Z.
const MIN1: usize = 10;
const SHIFT: usize = 15;
const PCH_MAX: usize = 16;
const IS_EWMA: usize = 21;

/// The record after a day at a price, rates at their minima.
fn after(p: i64, term: RepoTerm, changes: &[(usize, i64)]) -> Result<Record, Refusal> {
    let given = Admission {
        statics: z_with(&[&[(IS_EWMA, 0)], changes].concat()),
        ..admission(p, 0)
    };
    let rows = traded(p);
    let day = Day {
        terms: [term, NO_REPO, NO_REPO],
        ..day(1, &rows)
    };
    evaluated(&admitted(&given).unwrap(), &day)
}

fn band(p: i64, term: RepoTerm, changes: &[(usize, i64)]) -> (i64, i64) {
    let term = after(p, term, changes).unwrap().terms[0];
    (term.lower, term.upper)
}

#[test]
fn each_grid_goes_inward() {
    // Monitoring no, 33.33 per cent: 1.3333 and 0.6667 of the price.
    let far = |lot: i64, p: i64| {
        let changes = [
            (MONITORING, 0),
            (PCH_MAX, 3_333),
            (PCL_MAX, 3_333),
            (LOT, lot),
        ];
        band(p, NO_REPO, &changes)
    };
    // 1,333,300 and 666,700 are whole on every grid.
    for lot in [1, 10, 100] {
        assert_eq!(far(lot, 1_000_000), (666_700, 1_333_300), "{lot}");
    }
    // 1,333,433.33 and 666,766.67; 1,333,313.333 and 666,706.667.
    assert_eq!(far(1, 1_000_100), (666_800, 1_333_400));
    assert_eq!(far(10, 1_000_010), (666_710, 1_333_310));
    // 1,333,301.3333 and 666,700.6667: a part above and a part below.
    assert_eq!(far(100, 1_000_001), (666_701, 1_333_301));
    // 13,333 of 10,000 and 9,999: 13,331.6667 and 6,666.3333.
    assert_eq!(far(100, 9_999), (6_667, 13_331));
}

#[test]
fn a_narrow_band_may_cross() {
    // No spread: 3.65 per cent for 30 days are 30/10,000, which lies between two
    // steps of the grid.
    let term = |rate: i64| RepoTerm {
        days: 30,
        rrcl: rate,
        rrch: rate,
    };
    for (lot, grid) in [(1, 100), (10, 10), (100, 1)] {
        let changes = [(MIN1, 0), (LOT, lot)];
        let crossed = Err(Refusal::BandCrossed);
        for p in [grid, 2 * grid, 20 * grid] {
            let at = |rate: i64| after(p, term(rate), &changes).map(|_| ());
            assert_eq!(at(365), crossed, "{grid} {p}");
            assert_eq!(at(-365), crossed, "{grid} {p}");
            assert_eq!(at(0), Ok(()), "{grid} {p}");
        }
    }
    // On a multiple of the grid they touch: 365 bp for 20 days are 20/10,000.
    let days_20 = RepoTerm {
        days: 20,
        rrcl: 365,
        rrch: 365,
    };
    assert_eq!(band(5_000, days_20, &[(MIN1, 0)]), (5_010, 5_010));
}

#[test]
fn a_move_goes_inward_and_ranges_half_up() {
    // S_1 500 over x_pr 2, shift 0.25: 1.025 and 0.975, then 1.0375 and 0.9625.
    // P 1,000,010: 1,025,010.25 and 975,009.75, then 1,037,510.375 and
    // 962,509.625; delta 12,500.125; ranges 1,050,010.5 and 950,009.5.
    let record = after(1_000_010, NO_REPO, &[]).unwrap();
    let bands = |record: &Record| (record.terms[0].lower, record.terms[0].upper);
    assert_eq!(Z[SHIFT], 25);
    assert_eq!(bands(&record), (975_010, 1_025_010));
    assert_eq!((record.lower[0], record.upper[0]), (950_010, 1_050_010));
    let up = moved(&record, 0).unwrap();
    assert_eq!(bands(&up), (975_010, 1_037_510));
    assert_eq!(up.upper[0], 1_062_510);
    let down = moved(&record, 1).unwrap();
    assert_eq!(bands(&down), (962_510, 1_025_010));
    assert_eq!(down.lower[0], 937_510);
}

#[test]
fn the_gateway_follows() {
    let call = |verb: &[u8], values: &[i64]| perform(verb, &[values, &Z].concat()).unwrap();
    // Case 4: P 1,030,000, S_1 800, k 2, 14.60 and -7.30 per cent.
    assert_eq!(call(b"band", &[1_030_000, 800, 2, 1_460, 0, 0]), 1_072_050);
    assert_eq!(call(b"band", &[1_030_000, 800, 2, -730, 0, 1]), 988_410);
    assert_eq!(call(b"band", &[1_030_000, 800, 0, 0, 1, 0]), 1_091_800);
    // A range limit keeps half up: 1,060,106 and 1,059,894.
    assert_eq!(call(b"range", &[1_060_000, 1, 0]), 1_060_110);
    assert_eq!(call(b"range", &[1_060_000, 1, 1]), 1_059_890);
}
