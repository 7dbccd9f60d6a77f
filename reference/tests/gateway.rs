//! The gateway's lines: figures of document 01's cases, and its refusals.

mod common;

use common::{z_with, IS_EWMA, LOT, MONITORING, Z};
use reference::gateway::{gateway, perform};
use reference::statics::STATICS;

fn call(verb: &str, values: &[i64], statics: &[i64; STATICS]) -> i64 {
    let numbers = [values, statics].concat();
    perform(verb.as_bytes(), &numbers).expect("a call")
}

#[test]
fn rates_of_cases_1_and_2() {
    let rate = |m, level| call("rate", &[700, m, level], &Z);
    assert_eq!([rate(0, 1), rate(0, 2), rate(0, 3)], [800, 1_200, 1_500]);
    assert_eq!(rate(6, 1), 1_500);
    assert_eq!(rate(1, 1), 1_000);
    assert_eq!(call("rate", &[4_000, 10, 3], &Z), 4_000);
    assert_eq!(call("rate", &[0, 0, 1], &Z), 500);
}

#[test]
fn limits_of_cases_3_to_5() {
    assert_eq!(call("range", &[1_030_000, 800, 0], &Z), 1_112_400);
    assert_eq!(call("range", &[1_030_000, 1_500, 1], &Z), 875_500);
    assert_eq!(call("band", &[1_030_000, 800, 0, 0, 0, 1], &Z), 988_800);
    assert_eq!(call("band", &[1_030_000, 800, 0, 0, 0, 0], &Z), 1_071_200);
    assert_eq!(call("band", &[1_030_000, 800, 2, -730, 0, 1], &Z), 988_410);
    assert_eq!(
        call("band", &[1_030_000, 800, 2, 1_460, 0, 0], &Z),
        1_072_050
    );
    assert_eq!(call("band", &[1_030_000, 800, 0, 0, 1, 0], &Z), 1_091_800);
}

#[test]
fn flags_no() {
    let no_ewma = z_with(&[(IS_EWMA, 0)]);
    assert_eq!(call("rate", &[4_000, 10, 2], &no_ewma), 700);
    assert_eq!(call("rate", &[4_000, 11, 2], &no_ewma), -6);
    let unmonitored = z_with(&[(MONITORING, 0)]);
    let band = |c, side| call("band", &[1_000_000, 800, 30, 9_999, c, side], &unmonitored);
    assert_eq!((band(50, 0), band(50, 1)), (1_200_000, 800_000));
    assert_eq!(band(51, 0), -6);
}

#[test]
fn both_sides_of_each_range() {
    let check = |verb: &str, values: &[i64], place: usize, low: i64, high: i64, step: i64| {
        for (value, inside) in [
            (low, true),
            (high, true),
            (low - step, false),
            (high + step, false),
            (i64::MIN, false),
            (i64::MAX, false),
        ] {
            let mut values = values.to_vec();
            values[place] = value;
            let said = call(verb, &values, &Z);
            assert_eq!(said >= 0, inside, "{verb} {values:?}");
            assert!(said >= 0 || said == -6, "{verb} {values:?}");
        }
    };
    let rate = [700, 0, 1];
    check("rate", &rate, 0, 0, 100_000, 100);
    check("rate", &rate, 1, 0, 10, 1);
    check("rate", &rate, 2, 1, 3, 1);
    let range = [1_000_000, 800, 0];
    check("range", &range, 0, 10, 10_000_000_000, 10);
    check("range", &range, 1, 0, 10_000, 1);
    check("range", &range, 2, 0, 1, 1);
    let band = [1_000_000, 800, 2, 100, 1, 0];
    check("band", &band, 0, 10, 10_000_000_000, 10);
    check("band", &band, 1, 0, 10_000, 1);
    check("band", &band, 2, 0, 30, 1);
    check("band", &band, 3, -9_999, 9_999, 1);
    check("band", &band, 4, 0, 50, 1);
    check("band", &band, 5, 0, 1, 1);
}

#[test]
fn off_the_grid_or_step_is_6() {
    assert_eq!(call("rate", &[650, 0, 1], &Z), -6);
    assert_eq!(call("range", &[1_000_005, 800, 0], &Z), -6);
    assert_eq!(call("band", &[1_000_005, 800, 0, 0, 0, 0], &Z), -6);
    let lot_1 = z_with(&[(LOT, 1)]);
    assert_eq!(call("range", &[1_000_010, 800, 0], &lot_1), -6);
    let lot_11 = z_with(&[(LOT, 11)]);
    assert_eq!(call("range", &[1_000_005, 0, 0], &lot_11), 1_000_005);
}

#[test]
fn a_static_out_of_range_is_4_before_all_else() {
    for (place, value) in [
        (0, 0),
        (1, 0),
        (13, 10_100),
        (20, 2),
        (21, -1),
        (25, 2),
        (25, -1),
        (19, i64::MAX),
    ] {
        let statics = z_with(&[(place, value)]);
        assert_eq!(call("rate", &[-1, 0, 1], &statics), -4);
        assert_eq!(call("range", &[0, 800, 0], &statics), -4);
        assert_eq!(call("band", &[1_000_000, 800, 0, 0, 0, 0], &statics), -4);
    }
}

#[test]
fn lines() {
    let statics: Vec<String> = Z.iter().map(i64::to_string).collect();
    let statics = statics.join(" ");
    let script = [
        format!("rate 700 0 1 {statics}"),
        String::new(),
        format!("rate 700 0 {statics}"),
        "bands".to_string(),
        format!("band 1030000 800 0 0 0 1 {statics}"),
        format!("rate 700 0 1 {statics} 0"),
        format!("range 1030000 800 0 {statics}\r"),
        format!("rate 5 0 1 {statics}"),
    ]
    .join("\n");
    let mut output = Vec::new();
    gateway(script.as_bytes(), &mut output).unwrap();
    assert_eq!(
        String::from_utf8(output).unwrap(),
        "800\nbad 3\nbad 4\n988800\nbad 6\n1112400\n-6\n"
    );
}
