//! W-202: where a share's replacement is the greater, t is the least multiple
//! of h with 100·t ≥ r, which S_max does not hold (W-208); on a tie the ordinary
//! rule stands.

mod common;

use common::{admission, day, traded, z_with, Z};
use reference::record::Record;
use reference::security::{admitted, evaluated, Admission, Day};

/// Places in Z.
const A_UP: usize = 3;
const A_DOWN: usize = 4;
const WAIT: usize = 5;
const S_MAX: usize = 13;

/// The earlier evaluations; a millionth of them is 300 units.
const EARLIER: i64 = 300_000_000;

/// A security with no weights, so that x is its volatility.
fn unweighed(s: i64, tentative: i64, changes: &[(usize, i64)]) -> Record {
    let changes = [&[(A_UP, 0), (A_DOWN, 0)], changes].concat();
    let given = Admission {
        s,
        statics: z_with(&changes),
        ..admission(EARLIER, tentative)
    };
    admitted(&given).unwrap()
}

/// Volatility, tentative rate and age after a move up of so many millionths.
fn after(record: &Record, r: i64) -> (i64, i64, i64) {
    let rows = traded(EARLIER + 300 * r);
    let after = evaluated(record, &day(1, &rows)).unwrap();
    (after.s, after.tentative, after.age)
}

#[test]
fn the_replacement_is_strictly_the_greater_or_the_ordinary_rule_stands() {
    // 100·200,000 needs 66,667 of q 300. 300·66,667 = 20,000,100 is above
    // 10,000·2,000, so the ordinary t is 2,100.
    let with = |s: i64| after(&unweighed(s, 600, &[]), 200_000);
    assert_eq!(with(20_000), (66_667, 2_000, 0));
    assert_eq!(with(66_666), (66_667, 2_000, 0));
    assert_eq!(with(66_667), (66_667, 2_100, 0));
    assert_eq!(with(66_668), (66_668, 2_100, 0));
}

#[test]
fn t_is_the_least_multiple_that_covers_the_move() {
    let with = |r: i64| after(&unweighed(20_000, 600, &[]), r);
    assert_eq!(with(199_999), (66_667, 2_000, 0));
    assert_eq!(with(200_000), (66_667, 2_000, 0));
    assert_eq!(with(200_001), (66_667, 2_100, 0));
    // The least part of a millionth counts, as (e) rounds up.
    let rows = traded(EARLIER + 60_000_010);
    let record = unweighed(20_000, 600, &[]);
    assert_eq!(evaluated(&record, &day(1, &rows)).unwrap().tentative, 2_100);
    // The greatest move: 10,000 bp.
    let widest = unweighed(20_000, 600, &[(S_MAX, 10_000)]);
    assert_eq!(after(&widest, 1_000_000), (333_334, 10_000, 0));
    assert_eq!(after(&widest, 990_000), (330_000, 9_900, 0));
}

#[test]
fn the_maximum_does_not_hold_t() {
    let with = |s_max: i64, r: i64| after(&unweighed(20_000, 600, &[(S_MAX, s_max)]), r);
    assert_eq!(with(2_100, 200_000), (66_667, 2_000, 0));
    assert_eq!(with(2_000, 200_000), (66_667, 2_000, 0));
    assert_eq!(with(2_000, 200_001), (66_667, 2_100, 0));
    assert_eq!(with(1_900, 200_000), (66_667, 2_000, 0));
    assert_eq!(with(900, 1_000_000), (333_334, 10_000, 0));
}

#[test]
fn the_tentative_rate_rises_stays_or_falls_by_the_new_t() {
    let with = |tentative: i64, wait: i64| {
        let record = unweighed(20_000, tentative, &[(WAIT, wait)]);
        after(&record, 200_000)
    };
    assert_eq!(with(1_900, 1), (66_667, 2_000, 0));
    assert_eq!(with(2_000, 1), (66_667, 2_000, 1));
    // The ordinary t, 2,100, would let it stay.
    assert_eq!(with(2_100, 1), (66_667, 2_000, 0));
    assert_eq!(with(2_100, 2), (66_667, 2_100, 1));
    assert_eq!(with(4_000, 1), (66_667, 3_900, 0));
}

#[test]
fn a_replacement_that_is_not_asked_for_changes_nothing() {
    // 100·S_1 is 50,000 at admission: t is then from s, 20,000 or 1,000.
    assert_eq!(Z[10], 500);
    let with = |s: i64, r: i64| after(&unweighed(s, 0, &[]), r);
    assert_eq!(with(1_000, 50_000), (1_000, 100, 0));
    assert_eq!(with(1_000, 50_001), (16_667, 600, 0));
    let rows = traded(EARLIER + 60_000_000);
    let with = |days_between: i64| {
        let day = Day {
            days_between,
            ..day(1, &rows)
        };
        let after = evaluated(&unweighed(20_000, 0, &[]), &day).unwrap();
        (after.s, after.tentative)
    };
    assert_eq!(with(1), (66_667, 2_000));
    assert_eq!(with(2), (20_000, 600));
}
