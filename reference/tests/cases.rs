//! Document 01's cases, "Both sides of each line", each figure it names.

mod common;

use common::{day, evaluation, quote, security, traded, NO_REPO};
use reference::rates::price_move;
use reference::record::Record;
use reference::refusal::Refusal;
use reference::security::{evaluated, moved, quoted, Day, RepoTerm};

const GRID: i64 = 10;

/// Case 1's security after its day, with m non-trading days ahead.
fn case_1(m: i64) -> Record {
    let rows = traded(1_030_000);
    let day = Day {
        days_closed: m,
        ..day(1, &rows)
    };
    evaluated(&security(1_000_000, 600), &day).unwrap()
}

#[test]
fn case_1_rates() {
    let record = case_1(0);
    assert_eq!(price_move(1_030_000, 1_000_000, 1_000_000), 30_000);
    assert_eq!(record.s, 21_214);
    assert_eq!(record.tentative, 700);
    assert_eq!(record.rates, [800, 1_200, 1_500]);
    assert_eq!((record.p1, record.p2), (1_030_000, 1_000_000));
    assert_eq!(record.age, 0);
    assert_eq!(record.last_day(), 1);
    assert!(record.is_live());
}

#[test]
fn case_2_days_ahead() {
    assert_eq!(case_1(6).rates[0], 1_500);
    assert_eq!(case_1(1).rates[0], 1_000);
}

#[test]
fn case_3_ranges() {
    let record = case_1(0);
    assert_eq!(record.upper, [1_112_400, 1_153_600, 1_184_500]);
    assert_eq!(record.lower, [947_600, 906_400, 875_500]);
}

#[test]
fn case_4_bands() {
    let rows = traded(1_030_000);
    let with_repo = RepoTerm {
        days: 2,
        rrcl: -730,
        rrch: 1_460,
    };
    let day = Day {
        terms: [NO_REPO, with_repo, NO_REPO],
        ..day(1, &rows)
    };
    let record = evaluated(&security(1_000_000, 600), &day).unwrap();
    let bands = record.terms.map(|term| (term.lower, term.upper));
    assert_eq!(
        bands,
        [
            (988_800, 1_071_200),
            // W-209: 1,072,056.96 goes down, and 988,404.48 up.
            (988_410, 1_072_050),
            (988_800, 1_071_200)
        ]
    );
}

#[test]
fn case_5_one_upper_move() {
    let before = case_1(0);
    let record = moved(&before, 0).unwrap();
    for term in record.terms {
        assert_eq!((term.lower, term.upper), (988_800, 1_091_800));
    }
    assert_eq!(record.upper, [1_133_000, 1_174_200, 1_205_100]);
    assert_eq!(record.lower, before.lower);
    assert_eq!((record.moves_upper, record.moves_lower), (1, 0));
}

#[test]
fn case_6_nearness() {
    let record = case_1(0);
    let near_top = |bid| quoted(&record, &quote(5, bid, 0)).unwrap().0.terms[0].near_top;
    assert_eq!(near_top(1_062_960), None);
    assert_eq!(near_top(1_062_970), Some(5));
    assert_eq!(near_top(1_062_961), Some(5));
}

#[test]
fn case_7_a_third_of_a_millionth_counts() {
    assert_eq!(price_move(306_000_100, 300_000_000, 300_000_000), 20_001);
    let rows = traded(306_000_100);
    let record = evaluated(&security(300_000_000, 600), &day(1, &rows)).unwrap();
    // a_up 1000: 9000·20000² + 1000·20001² asks for 20,001; a_down 500 too,
    // so tell them apart by weights far apart.
    assert_eq!(record.s, 20_001);
    let mut weighed = security(300_000_000, 600);
    weighed.statics.a_up = 10_000;
    weighed.statics.a_down = 0;
    let up = evaluated(&weighed, &day(1, &rows)).unwrap();
    assert_eq!(up.s, 20_001);
    let rows = traded(306_000_000);
    let level = evaluated(&weighed, &day(1, &rows)).unwrap();
    assert_eq!(level.s, 20_000);
}

#[test]
fn case_8_replacement() {
    let mut record = security(1_000_000, 600);
    record.rates = [700, 700, 900];
    let rows = traded(1_200_000);
    assert_eq!(price_move(1_200_000, 1_000_000, 1_000_000), 200_000);
    let one = evaluated(&record, &day(1, &rows)).unwrap();
    assert_eq!(one.s, 66_667);
    // W-202: t is 2,000, and so is the tentative rate.
    assert_eq!(one.tentative, 2_000);
    let at_most_one = Day {
        days_between: 1,
        ..day(1, &rows)
    };
    let one = evaluated(&record, &at_most_one).unwrap();
    assert_eq!((one.s, one.tentative), (66_667, 2_000));
    let two = Day {
        days_between: 2,
        ..day(1, &rows)
    };
    let two = evaluated(&record, &two).unwrap();
    assert_eq!((two.s, two.tentative), (20_000, 600));
}

#[test]
fn case_9_one_step_down_after_the_wait() {
    let two = Day {
        days_between: 2,
        ..day(1, &[])
    };
    let after = |age| {
        let mut record = security(1_000_000, 700);
        record.s = 3_333;
        record.age = age;
        let after = evaluated(&record, &two).unwrap();
        assert_eq!(after.s, 3_333);
        (after.tentative, after.age)
    };
    assert_eq!(after(3), (700, 4));
    assert_eq!(after(4), (600, 0));
}

#[test]
fn case_10_weighted_close() {
    let rows = [
        [0, 10_000, 0, 1_000_000, 0, 0, 300],
        [0, 125_000, 0, 81_000, 0, 0, 8],
    ]
    .concat();
    assert_eq!(evaluation(&rows, 1, 1), Some(1_003_125));
    assert_eq!(evaluation(&rows, 1, GRID), Some(1_003_130));
}

#[test]
fn case_11_the_median_of_a_crossed_market() {
    // W-205: the bid and the ask stand in two rows.
    let rows = |close: i64| {
        let bid = [0, 10_000, 0, close, 1_010_000, 0, 1];
        let ask = [0, 10_000, 0, 0, 0, 1_000_000, 0];
        [bid, ask].concat()
    };
    assert_eq!(evaluation(&rows(1_005_000), 1, GRID), Some(1_005_000));
    assert_eq!(evaluation(&rows(990_000), 1, GRID), Some(1_000_000));
    let record = security(1_000_000, 600);
    let price = |rows: &[i64]| evaluated(&record, &day(1, rows)).map(|record| record.p1);
    assert_eq!(price(&rows(1_005_000)), Ok(1_005_000));
    assert_eq!(price(&rows(990_000)), Ok(1_000_000));
    // In one row they are a typing error.
    for close in [1_005_000, 990_000] {
        let row = [0, 10_000, 0, close, 1_010_000, 1_000_000, 1];
        assert_eq!(price(&row), Err(Refusal::CrossedRow));
    }
}

#[test]
fn case_12_repo_rate() {
    let row = [1, 10_000, 1_825, 1_000_000, 0, 0, 1];
    assert_eq!(evaluation(&row, 1, 1), Some(999_500));
}

#[test]
fn case_13_sixty_seconds() {
    let record = case_1(0);
    let (record, first) = quoted(&record, &quote(100, 1_062_970, 0)).unwrap();
    assert!(!first.top);
    let (record, early) = quoted(&record, &quote(159, 1_070_000, 0)).unwrap();
    assert!(!early.top);
    let (record, due) = quoted(&record, &quote(160, 1_062_970, 996_000)).unwrap();
    assert!(due.top && !due.bottom);
    assert_eq!(record.terms[0].near_top, Some(100));
    assert_eq!(record.terms[0].near_bottom, Some(160));
    let (record, cleared) = quoted(&record, &quote(300, 1_062_960, 996_000)).unwrap();
    assert!(!cleared.top && cleared.bottom);
    assert_eq!(record.terms[0].near_top, None);
}
