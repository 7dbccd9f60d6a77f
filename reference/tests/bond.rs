//! Bonds (W-206): each line of the request on both sides, with the figures
//! worked out by hand.

use reference::bond::{worked, Worked, FLOW_RANGES, VALUES, VALUE_RANGES};
use reference::protocol::evening;
use reference::refusal::Refusal;

/// A bond at 100.00 per cent of 1,000 roubles, 5 roubles accrued, REPORate 3.65
/// per cent; the terms are of 0, 2 and 3 days, the statics those of Z.
const CASE: [i64; VALUES] = [
    0, 10_000, 10_000_000, 50_000, 365, 20_000, 600, 0, 0, 0, 0, 2, -730, 1_460, 3, 0, 0, 100, 300,
    5, 2, 5, 8, 50, 500, 700, 900, 4_000, 200, 2_000, 2_000, 1, 1,
];

/// Places of the values.
const M: usize = 0;
const NET: usize = 1;
const FACE: usize = 2;
const ACCRUED: usize = 3;
const REPO: usize = 4;
const S: usize = 5;
const TENTATIVE: usize = 6;
const AGE: usize = 7;
const K0: usize = 8;
const LOW0: usize = 9;
const HIGH0: usize = 10;
const K1: usize = 11;
const K2: usize = 14;
const H: usize = 17;
const WAIT: usize = 19;
const RH1: usize = 20;
const RH2: usize = 21;
const MIN1: usize = 24;
const MIN3: usize = 26;
const SMAX: usize = 27;
const XPR: usize = 28;
const PCHMAX: usize = 29;
const PCLMAX: usize = 30;
const MONITORING: usize = 31;
const ISEWMA: usize = 32;

fn with(changes: &[(usize, i64)]) -> [i64; VALUES] {
    let mut values = CASE;
    for (place, value) in changes {
        values[*place] = *value;
    }
    values
}

/// The case with changes and with flows.
fn answer(changes: &[(usize, i64)], flows: &[i64]) -> Result<Worked, Refusal> {
    worked(&with(changes), flows)
}

fn number(changes: &[(usize, i64)], flows: &[i64]) -> i64 {
    answer(changes, flows).map_or_else(Refusal::number, |_| 0)
}

/// No repo rates, Monitoring no and no maxima: every factor is 1.
const STILL: [(usize, i64); 6] = [
    (REPO, 0),
    (K1, 1),
    (K2, 2),
    (PCHMAX, 0),
    (PCLMAX, 0),
    (MONITORING, 0),
];

/// The lower and the upper limit of each term of a still bond with changes.
fn still(changes: &[(usize, i64)], flows: &[i64]) -> [(i64, i64); 3] {
    let changes = [&STILL, changes].concat();
    let worked = answer(&changes, flows).unwrap();
    worked.limits.map(|limits| (limits.lower, limits.upper))
}

#[test]
fn a_worked_bond() {
    // P 10,050,000. q·s is 600 bp, so t and the tentative rate are 600, a day
    // older. 600 + 50 = 650 gives 700; by sqrt(5/2) 1,027.7 and by 2 1,300. The
    // spread is 700/2 bp: 10,401,750 and 9,698,250.
    // k 0: less 50,000, over 1,000: 10,351.75 and 9,648.25.
    // k 2: 10,410,071.4 and 9,694,370.7, less 1,000,000 and 50,000: 9,360.071
    // and 8,644.371.
    // k 3: the flow has become 1,000,100: 9,351.65 and 8,648.15.
    // The upper limits go down and the lower ones up (W-209).
    let worked = answer(&[], &[2, 1_000_000]).unwrap();
    assert_eq!(
        worked.numbers(),
        [
            10_050_000, 600, 1, 700, 1_100, 1_300, 9_649, 10_351, 9_649, 10_351, 8_645, 9_360,
            8_645, 9_360, 8_649, 9_351, 8_649, 9_351
        ]
    );
}

#[test]
fn the_gross_evaluation_is_half_up_to_a_unit() {
    let p = |net: i64, face: i64, accrued: i64| {
        answer(&[(NET, net), (FACE, face), (ACCRUED, accrued)], &[]).map(|worked| worked.p)
    };
    // 0.5 and 0.4999 of a unit.
    assert_eq!(p(5_000, 1, 0), Ok(1));
    assert_eq!(p(4_999, 1, 0), Err(Refusal::EvaluationOutOfRange));
    assert_eq!(p(4_999, 1, 1), Ok(1));
    assert_eq!(p(15_000, 1, 0), Ok(2));
    assert_eq!(p(14_999, 1, 0), Ok(1));
    // 10^10 and one more.
    assert_eq!(p(10_000, 10_000_000_000, 0), Ok(10_000_000_000));
    let past = Err(Refusal::EvaluationOutOfRange);
    assert_eq!(p(10_000, 10_000_000_000, 1), past);
    assert_eq!(p(30_000, 3_333_333_333, 1), Ok(10_000_000_000));
    assert_eq!(p(30_000, 3_333_333_333, 2), past);
    assert_eq!(p(30_000, 10_000_000_000, 10_000_000_000), past);
}

#[test]
fn each_carried_flow_is_half_up_to_a_unit() {
    // 18.25 per cent are 1/100 in 20 days: 50.5 and 49.49. P is 1,000,000 and
    // has grown by 1.05 per cent in 21 days; 990,000 are accrued.
    let base = [
        (REPO, 1_825),
        (FACE, 10_000),
        (ACCRUED, 990_000),
        (K0, 21),
        (K1, 0),
        (K2, 0),
    ];
    let upper = |flows: &[i64]| still(&base, flows)[0].1;
    assert_eq!(upper(&[]), 20_500);
    assert_eq!(upper(&[1, 50]), 20_449);
    assert_eq!(upper(&[1, 49]), 20_451);
    // Two of them are 102, not the 101 of their sum.
    assert_eq!(upper(&[1, 50, 1, 50]), 20_398);
    assert_eq!(upper(&[1, 100]), 20_399);
}

#[test]
fn the_grown_price_is_half_up_to_a_unit() {
    let limits = |accrued: i64, changes: &[(usize, i64)]| {
        let own = [(FACE, 10_000), (ACCRUED, accrued)];
        let changes = [&STILL, &own[..], changes].concat();
        answer(&changes, &[]).unwrap().limits[0].numbers()
    };
    // P 10,001 by 1.5, 0.5, 1.2 and 0.8: 15,001.5, 5,000.5, 12,001.2, 8,000.8.
    let halves = [(PCHMAX, 5_000), (PCLMAX, 5_000)];
    assert_eq!(limits(1, &halves), [5_000, 15_001, 8_000, 12_000]);
    assert_eq!(limits(2, &halves), [4_999, 15_001, 8_000, 12_000]);
    // S_1 1,000 bp over x_pr 2: P 10,010 by 1.05 and 0.95 is 10,510.5 and
    // 9,509.5.
    let spread = [
        (MONITORING, 1),
        (ISEWMA, 0),
        (MIN1, 1_000),
        (MIN1 + 1, 1_000),
        (MIN3, 1_000),
        (PCHMAX, 10_000),
        (PCLMAX, 10_000),
    ];
    assert_eq!(limits(10, &spread), [9_500, 10_501, 9_500, 10_501]);
}

#[test]
fn a_limit_goes_into_the_band() {
    // Of 40,000 a hundredth of a per cent is four units. The upper factor is 2,
    // the lower one 1/2: 80,000 and 20,000 less the flow.
    let limits = |flow: i64| {
        let own = [
            (FACE, 40_000),
            (ACCRUED, 0),
            (PCHMAX, 10_000),
            (PCLMAX, 5_000),
        ];
        still(&own, &[1, flow])[1]
    };
    assert_eq!(limits(0), (5_000, 20_000));
    assert_eq!(limits(1), (5_000, 19_999));
    assert_eq!(limits(2), (5_000, 19_999));
    assert_eq!(limits(3), (5_000, 19_999));
    assert_eq!(limits(4), (4_999, 19_999));
    // With no room between them the limits meet on a whole number alone.
    let narrow = |flow: i64| {
        let own = [(FACE, 40_000), (ACCRUED, 0)];
        number(&[&STILL, &own[..]].concat(), &[1, flow])
    };
    assert_eq!([0, 1, 2, 3, 4].map(narrow), [0, 9, 9, 9, 0]);
}

#[test]
fn off_the_book_the_limits_may_cross_alone() {
    // P is 100; less 50 it is 70 and 30 of a million off the book, 0.7 and 0.3
    // of a hundredth of a per cent; on the book 1.5 and below 0.
    let own = [
        (NET, 1),
        (FACE, 1_000_000),
        (ACCRUED, 0),
        (PCHMAX, 10_000),
        (PCLMAX, 10_000),
    ];
    let changes = [&STILL, &own[..]].concat();
    assert_eq!(number(&changes, &[1, 50]), 9);
    // Less 30 they are 90 and 50: 0 and 1. Less 20 they are 100 and 60: 1 and 1.
    assert_eq!(number(&changes, &[1, 30]), 9);
    let limits = answer(&changes, &[1, 20]).unwrap().limits[1];
    assert_eq!(limits.numbers(), [0, 1, 1, 1]);
    // Less 80 the lower one is 0.
    let limits = answer(&changes, &[1, 80]).unwrap().limits[1];
    assert_eq!(limits.numbers(), [0, 1, 0, 0]);
}

#[test]
fn a_negative_limit_is_zero() {
    let own = [(FACE, 20_000), (ACCRUED, 0), (PCHMAX, 10_000)];
    assert_eq!(still(&own, &[1, 30_000])[1], (0, 5_000));
    assert_eq!(still(&own, &[1, 20_000])[1], (0, 10_000));
    // A half of a hundredth is left below, and a half more above.
    assert_eq!(still(&own, &[1, 19_999])[1], (1, 10_000));
    assert_eq!(still(&own, &[1, 40_000])[1], (0, 0));
    assert_eq!(still(&own, &[1, 10_000_000_000])[1], (0, 0));
}

#[test]
fn a_flow_counts_from_its_day_on() {
    let own = [(FACE, 10_000), (ACCRUED, 0)];
    let uppers = |flows: &[i64]| still(&own, flows).map(|(_, upper)| upper);
    assert_eq!(uppers(&[]), [10_000, 10_000, 10_000]);
    assert_eq!(uppers(&[1, 100]), [10_000, 9_900, 9_900]);
    assert_eq!(uppers(&[2, 100]), [10_000, 10_000, 9_900]);
    assert_eq!(uppers(&[3, 100]), [10_000, 10_000, 10_000]);
    // In any order, and twice on a day.
    assert_eq!(
        uppers(&[2, 100, 1, 10, 2, 5, 30, 1]),
        [10_000, 9_990, 9_885]
    );
}

#[test]
fn off_the_book_the_band_is_no_wider_than_20_per_cent() {
    let limits = |pch_max: i64, pcl_max: i64| {
        let own = [
            (FACE, 10_000),
            (ACCRUED, 0),
            (PCHMAX, pch_max),
            (PCLMAX, pcl_max),
        ];
        answer(&[&STILL, &own[..]].concat(), &[]).unwrap().limits[0].numbers()
    };
    assert_eq!(limits(2_000, 2_000), [8_000, 12_000, 8_000, 12_000]);
    assert_eq!(limits(2_001, 1_999), [8_001, 12_001, 8_001, 12_000]);
    assert_eq!(limits(1_999, 2_001), [7_999, 11_999, 8_000, 11_999]);
}

#[test]
fn rates_come_by_the_share_rules() {
    let rates = |changes: &[(usize, i64)]| {
        let worked = answer(changes, &[]).unwrap();
        (worked.tentative, worked.age, worked.rates)
    };
    // Case 1: tentative 700 gives 800, 1,200 and 1,500; t 700 rises from 600.
    assert_eq!(rates(&[(S, 20_001)]), (700, 0, [800, 1_200, 1_500]));
    assert_eq!(rates(&[(S, 20_000)]).0, 600);
    // Case 2: with m 6 level 1 is 1,500.
    assert_eq!(rates(&[(S, 20_001), (M, 6)]).2[0], 1_500);
    // Case 9: one step down, when the wait is over.
    let down = |age: i64| rates(&[(S, 3_333), (TENTATIVE, 700), (AGE, age)]);
    assert_eq!((down(3).0, down(3).1), (700, 4));
    assert_eq!((down(4).0, down(4).1), (600, 0));
    assert_eq!(rates(&[(AGE, 250)]).1, 250);
    // The rates are held at the bond's own maximum, t is not (W-208).
    assert_eq!(
        rates(&[(S, 1_000_000), (SMAX, 1_000)]),
        (30_000, 0, [1_000, 1_000, 1_000])
    );
    // isEWMA no: the minima; tentative rate and age stay.
    assert_eq!(
        rates(&[(S, 1_000_000), (ISEWMA, 0), (AGE, 7)]),
        (600, 7, [500, 700, 900])
    );
}

#[test]
fn the_spread_stops_at_zero() {
    // S_1 10,000 bp over x_pr 1 and over x_pr 1/2: the lower factor is 0.
    for x_pr in [100, 50] {
        let changes = [
            (S, 1_000_000),
            (SMAX, 10_000),
            (XPR, x_pr),
            (PCLMAX, 10_000),
        ];
        let limits = answer(&changes, &[]).unwrap().limits[0];
        // 80 and 120 per cent of 10,050,000, less 50,000.
        assert_eq!(limits.numbers(), [0, 12_010, 7_990, 12_010], "{x_pr}");
    }
}

#[test]
fn numbers_come_6_then_17_then_7_then_9() {
    let no_face = [(FACE, 0)];
    assert_eq!(number(&no_face, &[]), 17);
    assert_eq!(number(&[(FACE, 0), (ACCRUED, 0)], &[]), 17);
    assert_eq!(number(&[(FACE, 0), (M, 11)], &[]), 6);
    assert_eq!(number(&[(FACE, 0)], &[0, 1]), 6);
    assert_eq!(number(&[(FACE, 1), (ACCRUED, 0), (NET, 1)], &[]), 7);
    // RRcL far above REPORate, and no maximum above.
    let crossed = [
        (K0, 30),
        (LOW0, 9_999),
        (HIGH0, 9_999),
        (PCHMAX, 0),
        (REPO, 0),
    ];
    let still_rates = [(ISEWMA, 0), (MIN1, 0)];
    let crossed = [&crossed[..], &still_rates].concat();
    assert_eq!(number(&crossed, &[]), 9);
    let too_great = [&crossed[..], &[(FACE, 10_000_000_000)]].concat();
    assert_eq!(number(&too_great, &[]), 7);
}

#[test]
fn every_value_has_its_range() {
    for (place, range) in VALUE_RANGES.iter().enumerate() {
        for outside in [range.start() - 1, range.end() + 1, i64::MIN, i64::MAX] {
            assert_eq!(number(&[(place, outside)], &[]), 6, "{place} {outside}");
        }
    }
    for (place, range) in FLOW_RANGES.iter().enumerate() {
        for (value, expected) in [
            (*range.start(), 0),
            (*range.end(), 0),
            (range.start() - 1, 6),
            (range.end() + 1, 6),
        ] {
            let mut flows = [1, 1, 1, 1];
            flows[2 + place] = value;
            assert_eq!(number(&[], &flows), expected, "{place} {value}");
        }
    }
    // Orders and multiples.
    assert_eq!(number(&[(LOW0, 1), (HIGH0, 0)], &[]), 6);
    assert_eq!(number(&[(RH1, 3), (RH2, 2)], &[]), 6);
    assert_eq!(number(&[(MIN3, 4_100)], &[]), 6);
    assert_eq!(number(&[(SMAX, 4_001)], &[]), 6);
    assert_eq!(number(&[(H, 99)], &[]), 6);
    assert_eq!(number(&[(TENTATIVE, 601)], &[]), 6);
    assert_eq!(number(&[(TENTATIVE, 4_100), (WAIT, 250)], &[]), 0);
    assert_eq!(number(&[(TENTATIVE, 100_000), (WAIT, 250)], &[]), 0);
    assert_eq!(number(&[(TENTATIVE, 100_100)], &[]), 6);
}

#[test]
fn there_are_at_most_four_flows() {
    for length in 0..20 {
        let expected = if length % 2 == 0 && length <= 8 { 0 } else { 6 };
        assert_eq!(number(&[], &vec![1; length]), expected, "{length}");
    }
}

fn said(script: &str) -> Vec<String> {
    let mut output = Vec::new();
    evening(script.as_bytes(), &mut output).unwrap();
    let text = String::from_utf8(output).unwrap();
    text.lines().map(str::to_string).collect()
}

/// The line of a bond's numbers.
fn line(changes: &[(usize, i64)], flows: &str) -> String {
    let words: Vec<String> = with(changes).iter().map(i64::to_string).collect();
    format!("bond {}{flows}", words.join(" "))
}

#[test]
fn a_bond_line() {
    let plain = line(&[], " 2 1000000");
    let expected = "0 10050000 600 1 700 1100 1300 9649 10351 9649 10351 8645 9360 8645 9360 \
8649 9351 8649 9351";
    assert_eq!(said(&plain), [expected]);
    assert_eq!(said(&line(&[(FACE, 0)], "")), ["17"]);
    assert_eq!(said(&line(&[], " 2")), ["6"]);
    assert_eq!(said(&line(&[], &" 1".repeat(30_000))), ["6"]);
    assert_eq!(said(plain.trim_end_matches(" 1 2 1000000")), ["bad 1"]);
    assert_eq!(said(&line(&[], " 2 x")), ["bad 1"]);
    assert_eq!(said("bond"), ["bad 1"]);
}

#[test]
fn a_bond_takes_worked_bands() {
    let interest = "interest 0 0 1 1000 500 100 1 5 0 0 0 100 9999 -9999 1 100 100 100 100 13 13 0";
    let given = line(&[(K0, 2), (LOW0, 87), (HIGH0, 113)], " 2 1000000");
    let paired = given.replacen("2 87 113", "2 0/1", 1);
    let answers = said(
        &[&paired, interest, &given, &paired]
            .map(AsRef::as_ref)
            .join("\n"),
    );
    assert_eq!(answers[0], "6");
    assert!(answers[2].starts_with("0 "));
    assert_eq!(answers[2], answers[3]);
    let elsewhere = given.replacen("100 300 5", "0/1 5", 1);
    assert_eq!(said(&elsewhere), ["bad 1"]);
}
