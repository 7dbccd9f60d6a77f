//! The rules of the interest side (W-201), each line on both sides, with the
//! figures worked out by hand.

use reference::ewma::Volatility;
use reference::interest::{Pair, RepoBand, Sheet, Worked, MATURITY, VALUES};
use reference::kept::Kept;
use reference::refusal::Refusal;

/// B YM YN A_UP A_DOWN Q H WAIT LIQ MM SEC XIR MONEY SECRATE.
const VALUES_OF_CASE: [i64; VALUES] = [
    0, 0, 2, 1_000, 500, 300, 25, 5, 10, 0, 0, 100, 9_999, -9_999,
];
/// T R R1 R2 INDEX VOLATILITY TENTATIVE AGE.
const KEY_OF_CASE: [i64; MATURITY] = [1, 800, 780, 830, 800, 20, 75, 2];

/// Places of the values.
const B: usize = 0;
const YM: usize = 1;
const YN: usize = 2;
const A_UP: usize = 3;
const A_DOWN: usize = 4;
const Q: usize = 5;
const H: usize = 6;
const LIQ: usize = 8;
const MM: usize = 9;
const SEC: usize = 10;
const XIR: usize = 11;
const MONEY: usize = 12;
const SECRATE: usize = 13;

/// Places of a key maturity's numbers.
const T: usize = 0;
const R1: usize = 2;
const R2: usize = 3;
const INDEX: usize = 4;
const VOLATILITY: usize = 5;
const TENTATIVE: usize = 6;
const AGE: usize = 7;

fn with<const N: usize>(mut numbers: [i64; N], changes: &[(usize, i64)]) -> [i64; N] {
    for (place, value) in changes {
        numbers[*place] = *value;
    }
    numbers
}

fn worked(values: &[(usize, i64)], keys: &[[i64; MATURITY]]) -> Result<Worked, Refusal> {
    let values = with(VALUES_OF_CASE, values);
    Sheet::from_numbers(&values, &keys.concat()).map(|sheet| sheet.worked())
}

/// The figures of one key maturity that is the case's but for the changes:
/// change, volatility, tentative, age, upward, downward.
fn figures(values: &[(usize, i64)], key: &[(usize, i64)]) -> Vec<i64> {
    let worked = worked(values, &[with(KEY_OF_CASE, key)]).unwrap();
    worked.numbers()[2..].to_vec()
}

fn volatility(values: &[(usize, i64)], key: &[(usize, i64)]) -> i64 {
    figures(values, key)[1]
}

/// Tentative rate and age.
fn tentative(values: &[(usize, i64)], key: &[(usize, i64)]) -> (i64, i64) {
    let figures = figures(values, key);
    (figures[2], figures[3])
}

/// A key maturity whose rate stays and whose volatility is its tentative rate,
/// so that with q 1, h 1 and no liquidity both estimates are that rate.
fn level(days: i64, rate: i64, estimate: i64) -> [i64; MATURITY] {
    [days, rate, rate, rate, rate, estimate, estimate, 0]
}

/// The lower and the upper limit of a pair over level key maturities.
fn band(pair: (i64, i64), values: &[(usize, i64)], keys: &[[i64; MATURITY]]) -> (i64, i64) {
    let plain = [(YM, pair.0), (YN, pair.1), (Q, 100), (H, 1), (LIQ, 0)];
    let worked = worked(&[&plain, values].concat(), keys).unwrap();
    (worked.band.rrcl, worked.band.rrch)
}

#[test]
fn a_case_by_hand() {
    // Change: the greater of |800 - 780| = 20 and |800 - 830| = 30. It is above
    // 20, so a is 1,000: 9,000·400 + 1,000·900 = 4,500,000, and 450 lies
    // between 21² = 441 and 22² = 484. 30 does not pass 75. 3·22 = 66, so t is
    // 75 and the tentative rate stays, a day older. 75 + 10 goes up to 100.
    assert_eq!(figures(&[], &[]), [30, 22, 75, 3, 100, 100]);
    // Both days may bring the greater change.
    assert_eq!(figures(&[], &[(R1, 755), (R2, 790)])[0], 45);
    // With R(2) = R(1) = 800 and x_IR 1: 800 - 100 to 800 + 100.
    let worked = worked(&[], &[KEY_OF_CASE]).unwrap();
    assert_eq!(worked.numbers()[..2], [700, 900]);
}

#[test]
fn a_change_above_the_volatility_takes_the_upper_weight() {
    // With weights of 1 and 0 the new volatility is the change or the old one.
    let weights = [(A_UP, 10_000), (A_DOWN, 0)];
    let after = |change: i64| volatility(&weights, &[(R1, 800 - change), (R2, 800)]);
    assert_eq!(after(19), 20);
    assert_eq!(after(20), 20);
    assert_eq!(after(21), 21);
}

#[test]
fn two_holidays_weigh_nothing() {
    let weights = |holidays: i64| [(A_UP, 10_000), (B, holidays)];
    assert_eq!(volatility(&weights(1), &[]), 30);
    assert_eq!(volatility(&weights(2), &[]), 20);
    assert_eq!(volatility(&weights(30), &[]), 20);
}

#[test]
fn the_volatility_is_rounded_up() {
    // a 1,000 and σ 0, the old tentative rate above every change. Change 19:
    // 361,000/10,000 = 36.1, just above 6² = 36.
    let after = |change: i64| volatility(&[], &[(R1, 800), (R2, 800 + change), (VOLATILITY, 0)]);
    assert_eq!(after(0), 0);
    assert_eq!(after(19), 7);
    // 1,000·30²/10,000 = 90, between 9² = 81 and 10² = 100.
    assert_eq!(after(30), 10);
    // 1,000·10²/10,000 = 10, between 9 and 16.
    assert_eq!(after(10), 4);
}

#[test]
fn a_change_above_the_tentative_rate_takes_the_replacement() {
    // Without weights x is 5. 100·60 = 6,000 = 300·20, and 6,100 needs 21.
    let after = |holidays: i64, change: i64| {
        let weights = [(A_UP, 0), (A_DOWN, 0), (B, holidays)];
        let key = [
            (R1, 800),
            (R2, 800 + change),
            (VOLATILITY, 5),
            (TENTATIVE, 60),
        ];
        volatility(&weights, &key)
    };
    assert_eq!(after(0, 60), 5);
    assert_eq!(after(0, 61), 21);
    assert_eq!(after(1, 61), 21);
    assert_eq!(after(2, 61), 5);
    // 100·63 = 300·21.
    assert_eq!(after(0, 63), 21);
    assert_eq!(after(0, 64), 22);
}

#[test]
fn the_lesser_replacement_is_not_taken() {
    // x is 30, and 100·61 needs 21 only; at 21 the two are equal.
    let after = |s: i64| {
        let weights = [(A_UP, 0), (A_DOWN, 0)];
        volatility(&weights, &[(R1, 861), (VOLATILITY, s), (TENTATIVE, 60)])
    };
    assert_eq!(after(30), 30);
    assert_eq!(after(21), 21);
    assert_eq!(after(20), 21);
}

#[test]
fn the_tentative_rate_rises_to_t_at_once() {
    // Volatility 22 and q 3: 66, so t is 75 with h 25.
    assert_eq!(tentative(&[], &[(TENTATIVE, 50)]), (75, 0));
    assert_eq!(tentative(&[], &[(TENTATIVE, 51)]), (51, 3));
    assert_eq!(tentative(&[], &[(TENTATIVE, 49)]), (75, 0));
}

#[test]
fn the_tentative_rate_falls_by_one_step_after_the_wait() {
    // t is 75: from 100 on it falls by 25, once age + 1 is 5.
    assert_eq!(tentative(&[], &[(TENTATIVE, 100), (AGE, 3)]), (100, 4));
    assert_eq!(tentative(&[], &[(TENTATIVE, 100), (AGE, 4)]), (75, 0));
    assert_eq!(tentative(&[], &[(TENTATIVE, 99), (AGE, 4)]), (99, 5));
    assert_eq!(tentative(&[], &[(TENTATIVE, 700), (AGE, 4)]), (675, 0));
    assert_eq!(tentative(&[], &[(TENTATIVE, 701), (AGE, 249)]), (676, 0));
    assert_eq!(tentative(&[], &[(AGE, 250)]), (75, 250));
}

#[test]
fn a_replacement_has_the_ordinary_t() {
    // W-202 is of shares: 21 replaces 5, and 3·21 = 63, though the change is 61.
    let weights = [(A_UP, 0), (A_DOWN, 0), (H, 1)];
    let key = [(R1, 861), (R2, 800), (VOLATILITY, 5), (TENTATIVE, 60)];
    assert_eq!(figures(&weights, &key)[..3], [61, 21, 63]);
}

#[test]
fn there_is_no_maximum() {
    // 10·19,998 = 199,980; 200·1,000 covers it, and of h 999 201 steps do.
    let greatest = |h: i64| {
        let values = [(Q, 1_000), (H, h), (B, 2)];
        tentative(&values, &[(VOLATILITY, 19_998), (TENTATIVE, 0)])
    };
    assert_eq!(greatest(1_000), (200_000, 0));
    assert_eq!(greatest(999), (200_799, 0));
    assert_eq!(greatest(1), (199_980, 0));
}

#[test]
fn the_upward_estimate_covers_both_minima() {
    let up = |liq: i64, mm: i64| figures(&[(LIQ, liq), (MM, mm)], &[])[4];
    // 75 is a multiple of 25 already.
    assert_eq!(up(0, 0), 75);
    assert_eq!(up(1, 0), 100);
    assert_eq!(up(25, 0), 100);
    assert_eq!(up(10, 85), 100);
    assert_eq!(up(10, 100), 100);
    assert_eq!(up(10, 101), 125);
}

#[test]
fn the_downward_estimate_covers_the_spread() {
    // The spread is INDEX - 800 + SEC.
    let down = |index: i64, sec: i64| figures(&[(SEC, sec)], &[(INDEX, index)])[5];
    assert_eq!(down(700, 60), 100);
    assert_eq!(down(-9_999, 0), 100);
    assert_eq!(down(800, 100), 100);
    assert_eq!(down(800, 101), 125);
    assert_eq!(down(850, 60), 125);
    // 9,999 - 800 + 9,999 = 19,198, up to 768 steps.
    assert_eq!(down(9_999, 9_999), 19_200);
    // MM is no part of it, nor the spread of the upward one.
    assert_eq!(figures(&[(MM, 500)], &[(INDEX, 1_000)])[4..], [500, 200]);
}

#[test]
fn ties_of_interpolation_go_up() {
    // Halfway between 100 and 103: 101.5, so 102; between -100 and -103:
    // -101.5, so -101. With Ym 0 the forward rate is R(Yn).
    let between = |one: i64, other: i64, term: i64, gap: i64| {
        band(
            (0, term),
            &[],
            &[level(1, one, 0), level(1 + gap, other, 0)],
        )
    };
    assert_eq!(between(100, 103, 2, 2), (102, 102));
    assert_eq!(between(-100, -103, 2, 2), (-101, -101));
    assert_eq!(between(0, -1, 2, 2), (0, 0));
    assert_eq!(between(-1, 0, 2, 2), (0, 0));
    // Over three days: 301/3 and 302/3.
    assert_eq!(between(100, 101, 2, 3), (100, 100));
    assert_eq!(between(100, 101, 3, 3), (101, 101));
    assert_eq!(between(-100, -101, 2, 3), (-100, -100));
    assert_eq!(between(-100, -101, 3, 3), (-101, -101));
}

#[test]
fn outside_the_key_maturities_the_nearest_counts() {
    let keys = [level(7, 100, 1), level(9, 300, 3), level(30, 500, 7)];
    // Before the first, at it, at the others, after the last: R - 1·HΔ and so on.
    assert_eq!(band((0, 2), &[], &keys), (99, 101));
    assert_eq!(band((0, 7), &[], &keys), (99, 101));
    assert_eq!(band((0, 9), &[], &keys), (297, 303));
    assert_eq!(band((0, 30), &[], &keys), (493, 507));
    assert_eq!(band((0, 31), &[], &keys), (493, 507));
    assert_eq!(band((0, 365), &[], &keys), (493, 507));
    // Between: 200 and 2 at 8.
    assert_eq!(band((0, 8), &[], &keys), (198, 202));
}

#[test]
fn estimates_are_interpolated_and_rounded_once() {
    // At 2 the estimates are 23/2, up to 12, for both sides; the rate is 100.
    let keys = [level(1, 100, 10), level(3, 100, 13)];
    assert_eq!(band((0, 2), &[], &keys), (88, 112));
    // x_IR 2: 100 ± 6.
    assert_eq!(band((0, 2), &[(XIR, 200)], &keys), (94, 106));
}

#[test]
fn each_limit_rounds_once() {
    // Pair 1/3: (103·3 - 100·1)/2 = 104.5, the estimate at 3 is 13.
    let keys = [level(1, 100, 10), level(3, 103, 13)];
    // 104.5 - 13 = 91.5 and 104.5 + 13 = 117.5.
    assert_eq!(band((1, 3), &[], &keys), (92, 118));
    // x_IR 2: 104.5 - 6.5 = 98 and 104.5 + 6.5 = 111, where rounded parts
    // would give 112.
    assert_eq!(band((1, 3), &[(XIR, 200)], &keys), (98, 111));
    // Below 0: (-103·3 + 100·1)/2 = -104.5; -117.5 and -91.5 go up.
    let keys = [level(1, -100, 10), level(3, -103, 13)];
    assert_eq!(band((1, 3), &[], &keys), (-117, -91));
}

#[test]
fn the_forward_rate_takes_rounded_rates() {
    // R(2) = 101.5, so 102; R(4) = 105. (105·4 - 102·2)/2 = 108, where 101.5
    // would give 108.5.
    let keys = [level(1, 100, 0), level(3, 103, 0), level(4, 105, 0)];
    assert_eq!(band((2, 4), &[], &keys), (108, 108));
}

#[test]
fn the_pair_0_1_is_held() {
    let held = |pair, money, security| {
        band(
            pair,
            &[(MONEY, money), (SECRATE, security)],
            &[level(1, 100, 13)],
        )
    };
    // Unheld 87 to 113.
    assert_eq!(held((0, 1), 9_999, -9_999), (87, 113));
    assert_eq!(held((0, 1), 114, 86), (87, 113));
    assert_eq!(held((0, 1), 113, 87), (87, 113));
    assert_eq!(held((0, 1), 112, 88), (88, 112));
    for other in [(0, 2), (1, 2), (0, 365), (2, 3)] {
        assert_eq!(held(other, 112, 88), (87, 113), "{other:?}");
    }
    // The two may cross.
    assert_eq!(held((0, 1), 50, 150), (150, 50));
    assert_eq!(held((0, 1), -9_999, 9_999), (9_999, -9_999));
}

#[test]
fn a_second_evening_goes_on_from_the_first() {
    // The case again with R 860 after 800 and 780: change 80, above 22 and
    // above 75. a 1,000: 9,000·484 + 1,000·6,400 = 10,756,000, between 32² =
    // 1,024 and 33² = 1,089 times 10,000; 8,000/300 is below. 3·33 = 99, so t
    // is 100 = 75 + 25 and the tentative rate rises.
    let first = worked(&[], &[KEY_OF_CASE]).unwrap().figures[0].after;
    let Volatility { s, tentative, age } = first;
    let next = [1, 860, 800, 780, 860, s, tentative, age];
    let second = worked(&[], &[next]).unwrap();
    assert_eq!(second.numbers()[2..], [80, 33, 100, 0, 125, 125]);
}

fn refused(values: &[(usize, i64)], keys: &[[i64; MATURITY]]) -> Option<i64> {
    worked(values, keys).err().map(Refusal::number)
}

#[test]
fn both_sides_of_each_range() {
    let values: [(i64, i64); VALUES] = [
        (0, 30),
        (0, 365),
        (0, 365),
        (0, 10_000),
        (0, 10_000),
        (100, 1_000),
        (1, 1_000),
        (1, 250),
        (0, 9_999),
        (0, 9_999),
        (0, 9_999),
        (50, 1_000),
        (-9_999, 9_999),
        (-9_999, 9_999),
    ];
    for (place, (low, high)) in values.into_iter().enumerate() {
        let at = |value: i64| refused(&[(place, value)], &[KEY_OF_CASE]);
        for inside in [low, high] {
            assert_ne!(at(inside), Some(6), "{place}: {inside}");
        }
        for outside in [low - 1, high + 1, i64::MIN, i64::MAX] {
            assert_eq!(at(outside), Some(6), "{place}: {outside}");
        }
    }
    let key: [(i64, i64); MATURITY] = [
        (0, 365),
        (-9_999, 9_999),
        (-9_999, 9_999),
        (-9_999, 9_999),
        (-9_999, 9_999),
        (0, 19_998),
        (0, 200_979),
        (0, 250),
    ];
    for (place, (low, high)) in key.into_iter().enumerate() {
        let at = |value: i64| {
            let last = with(KEY_OF_CASE, &[(T, 9), (place, value)]);
            let first = if place == T {
                vec![]
            } else {
                vec![KEY_OF_CASE]
            };
            refused(&[], &[first, vec![last]].concat())
        };
        for inside in [low, high] {
            assert_eq!(at(inside), None, "{place}: {inside}");
        }
        for outside in [low - 1, high + 1, i64::MIN, i64::MAX] {
            assert_eq!(at(outside), Some(6), "{place}: {outside}");
        }
    }
}

#[test]
fn one_to_eight_whole_maturities() {
    let numbers: Vec<i64> = (0..10).flat_map(|days| level(days, 100, 1)).collect();
    for length in 0..=80 {
        let number = Sheet::from_numbers(&VALUES_OF_CASE, &numbers[..length])
            .err()
            .map(Refusal::number);
        let expected = [8, 16, 24, 32, 40, 48, 56, 64].contains(&length);
        assert_eq!(number, (!expected).then_some(6), "{length}");
    }
}

#[test]
fn maturities_and_terms_ascend() {
    let keys = |days: [i64; 3]| days.map(|days| level(days, 100, 1));
    assert_eq!(refused(&[], &keys([0, 1, 2])), None);
    assert_eq!(refused(&[], &keys([0, 0, 2])), Some(14));
    assert_eq!(refused(&[], &keys([0, 2, 2])), Some(14));
    assert_eq!(refused(&[], &keys([0, 2, 1])), Some(14));
    assert_eq!(refused(&[], &keys([1, 0, 2])), Some(14));
    let pair = |ym, yn| refused(&[(YM, ym), (YN, yn)], &[KEY_OF_CASE]);
    assert_eq!(pair(0, 1), None);
    assert_eq!(pair(364, 365), None);
    assert_eq!(pair(0, 0), Some(14));
    assert_eq!(pair(1, 0), Some(14));
    assert_eq!(pair(365, 365), Some(14));
}

#[test]
fn out_of_range_comes_before_out_of_order() {
    let unordered = [level(2, 100, 1), level(1, 100, 1)];
    assert_eq!(refused(&[], &unordered), Some(14));
    assert_eq!(refused(&[(B, 31)], &unordered), Some(6));
    assert_eq!(refused(&[(YM, 366)], &[KEY_OF_CASE]), Some(6));
    assert_eq!(
        refused(&[(YM, 5), (YN, 5), (XIR, 49)], &[KEY_OF_CASE]),
        Some(6)
    );
    assert_eq!(
        refused(&[], &[level(366, 100, 1), level(1, 100, 1)]),
        Some(6)
    );
}

#[test]
fn the_three_newest_bands_are_kept() {
    let band = |limit: i64| RepoBand {
        rrcl: -limit,
        rrch: limit,
    };
    let pair = |yn: i64| Pair { ym: 0, yn };
    let mut kept = Kept::default();
    assert_eq!(kept.band(pair(1)), None);
    for (yn, limit) in [(1, 10), (2, 20), (1, 30)] {
        kept.keep(pair(yn), band(limit));
    }
    assert_eq!(kept.band(pair(1)), Some(band(30)));
    assert_eq!(kept.band(pair(2)), Some(band(20)));
    kept.keep(pair(3), band(40));
    kept.keep(pair(3), band(50));
    // What is left: 3, 3 and the later 1.
    assert_eq!(kept.band(pair(1)), Some(band(30)));
    assert_eq!(kept.band(pair(2)), None);
    assert_eq!(kept.band(pair(3)), Some(band(50)));
    kept.keep(pair(4), band(60));
    assert_eq!(kept.band(pair(1)), None);
}
