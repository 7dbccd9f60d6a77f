//! W-208: S_max holds the rates and not the tentative rate, which runs to the
//! least multiple of h at or above 100,000.

mod common;

use common::{admission, day, traded, z_with, Z};
use reference::gateway::perform;
use reference::record::Record;
use reference::security::{admitted, evaluated, Admission};

/// Places in Z.
const STEP: usize = 1;
const MULTIPLIER: usize = 2;
const A_UP: usize = 3;
const A_DOWN: usize = 4;
const WAIT: usize = 5;
const LIQ: usize = 9;
const MIN1: usize = 10;
const S_MAX: usize = 13;

fn share(s: i64, tentative: i64, changes: &[(usize, i64)]) -> Record {
    let given = Admission {
        s,
        statics: z_with(changes),
        ..admission(1_000_000, tentative)
    };
    admitted(&given).unwrap()
}

#[test]
fn a_bad_week() {
    // The volatility is the move; S_max is 1,000, and there is no wait.
    let changes = [
        (A_UP, 10_000),
        (A_DOWN, 10_000),
        (WAIT, 1),
        (LIQ, 0),
        (S_MAX, 1_000),
    ];
    let mut record = share(20_000, 600, &changes);
    let mut after = |number: i64, price: i64| {
        record = evaluated(&record, &day(number, &traded(price))).unwrap();
        (record.tentative, record.rates)
    };
    // A move of 50,000 is not above 100·S_1: s 50,000, t 1,500. The next day it
    // is the move of two days.
    let held = [1_000; 3];
    assert_eq!(after(1, 1_050_000), (1_500, held));
    assert_eq!(after(2, 1_050_000), (1_500, held));
    // Then t is 0, and the rates stay at S_max until the tentative rate is
    // below it. Held at S_max it would have been 900 on the third day.
    for (number, tentative) in [(3, 1_400), (4, 1_300), (5, 1_200), (6, 1_100), (7, 1_000)] {
        assert_eq!(after(number, 1_050_000), (tentative, held), "{number}");
    }
    assert_eq!(after(8, 1_050_000), (900, [900, 1_000, 1_000]));
}

#[test]
fn t_beside_the_maximum() {
    // No weights: q·s is 10,000·t, S_max is 4,000.
    let after = |s: i64, tentative: i64| {
        let record = share(s, tentative, &[(A_UP, 0), (A_DOWN, 0), (WAIT, 1)]);
        let after = evaluated(&record, &day(1, &[])).unwrap();
        (after.tentative, after.age)
    };
    assert_eq!(after(130_000, 600), (3_900, 0));
    assert_eq!(after(133_333, 600), (4_000, 0));
    assert_eq!(after(133_334, 600), (4_100, 0));
    assert_eq!(after(133_334, 4_000), (4_100, 0));
    assert_eq!(after(133_334, 4_100), (4_100, 1));
    assert_eq!(after(133_334, 4_200), (4_100, 0));
    assert_eq!(after(133_333, 4_100), (4_000, 0));
}

#[test]
fn the_top_of_the_range() {
    for (step, top) in [(1, 100_000), (7, 100_002), (999, 100_899), (1_000, 100_000)] {
        let changes = [
            (STEP, step),
            (MULTIPLIER, 1_000),
            (A_UP, 0),
            (A_DOWN, 0),
            (WAIT, 1),
            (MIN1, 0),
            (MIN1 + 1, 0),
            (MIN1 + 2, 0),
            (S_MAX, 4 * step),
        ];
        let after = |s: i64, tentative: i64| {
            let record = share(s, tentative, &changes);
            let after = evaluated(&record, &day(1, &[])).unwrap();
            assert_eq!(after.rates, [4 * step; 3]);
            after.tentative
        };
        assert_eq!(after(1_000_000, top - step), top, "{step}");
        assert_eq!(after(1_000_000, top), top, "{step}");
        assert_eq!(after(0, top), top - step, "{step}");
    }
}

#[test]
fn the_gateway_takes_the_wider_range() {
    let rate = |tentative: i64, level: i64| {
        let numbers = [&[tentative, 0, level][..], &Z].concat();
        perform(b"rate", &numbers).unwrap()
    };
    assert_eq!(rate(4_000, 1), 4_000);
    assert_eq!(rate(4_100, 1), 4_000);
    assert_eq!(rate(100_000, 3), 4_000);
    assert_eq!(rate(100_100, 3), -6);
    assert_eq!(rate(4_150, 1), -6);
}
