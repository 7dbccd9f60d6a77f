//! Rules of document 01 that its cases do not name.

mod common;

use common::{admission, day, evaluation, quote, security, traded, z_with, IS_EWMA, NO_REPO};
use reference::record::Record;
use reference::security::{admitted, evaluated, moved, quoted, Day, RepoTerm};

fn live() -> Record {
    evaluated(&security(1_000_000, 600), &day(1, &traded(1_030_000))).unwrap()
}

#[test]
fn an_admission_starts_at_the_minima() {
    let record = security(1_000_000, 600);
    assert_eq!(
        record.figures(),
        [
            7, 0, 0, 1_000_000, 1_000_000, 20_000, 600, 0, 500, 700, 900, 0, 0, 0, 0, 0, 0, 0, 0,
            0, 0, 0, -1, -1, 0, 0, 0, 0, 0, -1, -1, 0, 0, 0, 0, 0, -1, -1, 0, 0, 0, 0, 0, 0, 0
        ]
    );
}

#[test]
fn without_rows_the_close_is_the_previous_evaluation() {
    assert_eq!(evaluation(&[], 1_000_000, 10), Some(1_000_000));
}

#[test]
fn one_side_bounds_the_close() {
    let row = |bid, ask| [0, 10_000, 0, 1_000_000, bid, ask, 1];
    assert_eq!(evaluation(&row(1_010_000, 0), 1, 10), Some(1_010_000));
    assert_eq!(evaluation(&row(990_000, 0), 1, 10), Some(1_000_000));
    assert_eq!(evaluation(&row(0, 990_000), 1, 10), Some(990_000));
    assert_eq!(evaluation(&row(0, 1_010_000), 1, 10), Some(1_000_000));
}

#[test]
fn the_greatest_bid_and_the_least_ask_count() {
    let rows = [
        [0, 10_000, 0, 0, 900_000, 1_200_000, 0],
        [0, 10_000, 0, 0, 950_000, 0, 0],
        [0, 10_000, 0, 0, 0, 1_100_000, 0],
    ]
    .concat();
    assert_eq!(evaluation(&rows, 940_000, 10), Some(950_000));
    assert_eq!(evaluation(&rows, 1_110_000, 10), Some(1_100_000));
    assert_eq!(evaluation(&rows, 1_000_000, 10), Some(1_000_000));
}

#[test]
fn a_row_whose_volume_rounds_to_nothing_has_no_weight() {
    let row = |central_rate| [0, central_rate, 0, 1_000_000, 0, 0, 1];
    assert_eq!(evaluation(&row(4_999), 700_000, 10), Some(700_000));
    assert_eq!(evaluation(&row(5_000), 700_000, 10), Some(500_000));
}

#[test]
fn row_prices_round_half_up() {
    let row = |price| [0, 5_000, 0, price, 0, 0, 2];
    assert_eq!(evaluation(&row(1_000_001), 1, 1), Some(500_001));
    let ten_days = [10, 10_000, 5_000, 37 * 1_001, 0, 0, 1];
    assert_eq!(evaluation(&ten_days, 1, 1), Some(36_537));
}

#[test]
fn the_evaluation_rounds_half_up_to_each_grid() {
    assert_eq!(evaluation(&traded(1_000_050), 1, 100), Some(1_000_100));
    assert_eq!(evaluation(&traded(1_000_049), 1, 100), Some(1_000_000));
    assert_eq!(evaluation(&traded(1_000_005), 1, 10), Some(1_000_010));
    assert_eq!(evaluation(&traded(1_000_004), 1, 10), Some(1_000_000));
    assert_eq!(evaluation(&traded(1_000_001), 1, 1), Some(1_000_001));
}

#[test]
fn without_ewma_rates_are_minima_and_volatility_stays() {
    let mut admission = admission(1_000_000, 600);
    admission.statics = z_with(&[(IS_EWMA, 0)]);
    let mut record = admitted(&admission).unwrap();
    record.age = 3;
    let after = evaluated(&record, &day(1, &traded(5_000_000))).unwrap();
    assert_eq!(after.rates, [500, 700, 900]);
    assert_eq!((after.s, after.tentative, after.age), (20_000, 600, 3));
    assert_eq!((after.p1, after.p2), (5_000_000, 1_000_000));
}

#[test]
fn age_is_held_at_its_end() {
    let mut record = security(1_000_000, 600);
    record.age = 250;
    let two = Day {
        days_between: 2,
        ..day(1, &[])
    };
    let after = evaluated(&record, &two).unwrap();
    assert_eq!((after.tentative, after.age), (600, 250));
}

#[test]
fn tentative_follows_t_up_at_once() {
    let mut record = security(1_000_000, 600);
    record.s = 40_000;
    let two = Day {
        days_between: 2,
        ..day(1, &[])
    };
    assert_eq!(evaluated(&record, &two).unwrap().tentative, 1_200);
    record.s = 1_000_000;
    // W-208: S_max, 4,000, holds the rates alone.
    assert_eq!(evaluated(&record, &two).unwrap().tentative, 30_000);
    assert_eq!(evaluated(&record, &two).unwrap().rates, [4_000; 3]);
}

#[test]
fn an_evaluation_clears_the_day_before() {
    let record = moved(&moved(&live(), 0).unwrap(), 1).unwrap();
    let (record, _) = quoted(&record, &quote(500, 1_090_000, 970_000)).unwrap();
    assert!(record.terms[0].near_top.is_some() && record.terms[0].near_bottom.is_some());
    let after = evaluated(&record, &day(2, &[])).unwrap();
    assert_eq!((after.moves_upper, after.moves_lower), (0, 0));
    assert_eq!(after.last_second, 0);
    for term in after.terms {
        assert_eq!((term.near_top, term.near_bottom), (None, None));
    }
}

#[test]
fn a_move_clears_its_side_in_all_terms() {
    let mut record = live();
    for term in &mut record.terms {
        term.near_top = Some(1);
        term.near_bottom = Some(2);
    }
    for term in moved(&record, 0).unwrap().terms {
        assert_eq!((term.near_top, term.near_bottom), (None, Some(2)));
    }
    for term in moved(&record, 1).unwrap().terms {
        assert_eq!((term.near_top, term.near_bottom), (Some(1), None));
    }
}

#[test]
fn lower_range_limits_stop_at_0() {
    let mut record = live();
    record.lower = [20_610, 20_600, 20_590];
    assert_eq!(moved(&record, 1).unwrap().lower, [10, 0, 0]);
}

#[test]
fn the_lower_band_stops_at_its_maximum() {
    let mut record = live();
    for _ in 0..50 {
        record = moved(&record, 1).unwrap();
    }
    assert_eq!(record.terms[0].lower, 824_000);
    assert_eq!(record.moves_lower, 50);
}

#[test]
fn one_quote_touches_one_term() {
    let record = live();
    let second_term = reference::security::Quote {
        term: 1,
        ..quote(9, 1_071_200, 988_800)
    };
    let (after, _) = quoted(&record, &second_term).unwrap();
    assert_eq!(after.terms[1].near_top, Some(9));
    assert_eq!(after.terms[1].near_bottom, Some(9));
    assert_eq!(after.terms[0], record.terms[0]);
    assert_eq!(after.terms[2], record.terms[2]);
    assert_eq!(after.last_second, 9);
}

#[test]
fn a_missing_side_is_not_near_and_clears() {
    let (near, _) = quoted(&live(), &quote(9, 1_071_200, 988_800)).unwrap();
    let (after, _) = quoted(&near, &quote(9, 0, 0)).unwrap();
    assert_eq!(after.terms[0].near_top, None);
    assert_eq!(after.terms[0].near_bottom, None);
}

#[test]
fn nearness_of_a_crossed_band_is_signed() {
    let mut record = live();
    record.terms[0].lower = 1_000_000;
    record.terms[0].upper = 900_000;
    // w·(PcH - PcL) is -10,000, so only a bid more than that above PcH is near.
    let near = |bid| {
        quoted(&record, &quote(1, bid, 0)).unwrap().0.terms[0]
            .near_top
            .is_some()
    };
    assert!(!near(910_000));
    assert!(near(910_001));
}

#[test]
fn ninety_nine_per_cent_repo_rates_cross_a_narrow_band() {
    let mut admission = admission(1_000_000, 0);
    admission.statics = z_with(&[(common::PCL_MAX, 0)]);
    let record = admitted(&admission).unwrap();
    let crossing = RepoTerm {
        days: 30,
        rrcl: -9_999,
        rrch: -9_999,
    };
    let in_the_last_term = Day {
        terms: [NO_REPO, NO_REPO, crossing],
        ..day(1, &[])
    };
    assert_eq!(
        evaluated(&record, &in_the_last_term).unwrap_err().number(),
        9
    );
    assert!(evaluated(&record, &day(1, &[])).is_ok());
}
