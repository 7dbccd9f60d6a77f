//! The number that is named where an admission is refused 4.

mod common;

use common::{admission, Z};
use reference::field::{at_fault, number_at, numbers, NUMBERS};
use reference::protocol;
use reference::replay::admissions;
use reference::script;
use reference::security::{admitted, Admission};
use reference::why;

/// The numbers of the table in docs/EVENING.md, in their order.
const NAMES: [&str; NUMBERS] = [
    "ID",
    "DAY",
    "P1",
    "P2",
    "S",
    "TENTATIVE",
    "LOT",
    "H",
    "Q",
    "A_UP",
    "A_DOWN",
    "WAIT",
    "RH1",
    "RH2",
    "RH3",
    "LIQ",
    "MIN1",
    "MIN2",
    "MIN3",
    "SMAX",
    "XPR",
    "SHIFT",
    "PCHMAX",
    "PCLMAX",
    "W",
    "U",
    "MONITORING",
    "ISEWMA",
    "UEVENING",
    "AUTOCHANGE",
    "EVENINGMAX",
    "USEEXTERNAL",
];

/// The paper's admission with numbers changed, each by its name.
fn changed(changes: &[(&str, i64)]) -> Admission {
    let mut all = numbers(&admission(1_000_000, 600));
    for (name, value) in changes {
        let place = NAMES.iter().position(|known| known == name).unwrap();
        all[place] = *value;
    }
    protocol::admission(&all).unwrap()
}

/// The name of the number at fault.
fn named(changes: &[(&str, i64)]) -> Option<&'static str> {
    at_fault(&changed(changes)).map(|place| NAMES[place - 1])
}

#[test]
fn the_places_are_those_of_the_line() {
    for (index, name) in NAMES.iter().enumerate() {
        assert_eq!(number_at(index + 1).0, *name);
    }
    assert_eq!(numbers(&admission(1_000_000, 600))[6..], Z);
}

#[test]
fn each_number_past_each_end_of_its_own_range() {
    assert_eq!(named(&[]), None);
    for (index, name) in NAMES.iter().enumerate() {
        let range = number_at(index + 1).1;
        for value in [range.start() - 1, range.end() + 1, i64::MIN, i64::MAX] {
            assert_eq!(named(&[(name, value)]), Some(*name), "{name} {value}");
        }
    }
}

#[test]
fn the_own_ranges_of_the_numbers_with_relations() {
    assert_eq!(number_at(6).1, &(0..=100_999));
    assert_eq!(number_at(13).1, &(1..=5));
    for place in [14, 15] {
        assert_eq!(number_at(place).1, &(1..=30));
    }
    for place in [17, 18, 19, 20] {
        assert_eq!(number_at(place).1, &(0..=10_000));
    }
}

#[test]
fn each_relation() {
    // Lot 10 has a grid of 10, lot 1 one of 100, lot 11 one of 1.
    assert_eq!(named(&[("P1", 1_000_005)]), Some("P1"));
    assert_eq!(named(&[("P2", 1_000_005)]), Some("P2"));
    assert_eq!(named(&[("P2", 1_000_010), ("LOT", 1)]), Some("P2"));
    assert_eq!(named(&[("P1", 1_000_005), ("LOT", 11)]), None);
    // h is 100, so the top is 100,000; with h 999 it is 100,899.
    assert_eq!(named(&[("TENTATIVE", 650)]), Some("TENTATIVE"));
    assert_eq!(named(&[("TENTATIVE", 100_000)]), None);
    assert_eq!(named(&[("TENTATIVE", 100_100)]), Some("TENTATIVE"));
    assert_eq!(named(&[("TENTATIVE", 100_999)]), Some("TENTATIVE"));
    let of_999 = [
        ("H", 999),
        ("MIN1", 0),
        ("MIN2", 0),
        ("MIN3", 999),
        ("SMAX", 3_996),
    ];
    let with = |tentative: i64| named(&[&of_999[..], &[("TENTATIVE", tentative)]].concat());
    assert_eq!(with(100_899), None);
    assert_eq!(with(100_898), Some("TENTATIVE"));
    assert_eq!(with(101_898), Some("TENTATIVE"));
    assert_eq!(named(&[("RH2", 1)]), Some("RH2"));
    assert_eq!(named(&[("RH3", 4)]), Some("RH3"));
    assert_eq!(named(&[("RH1", 5), ("RH2", 5), ("RH3", 5)]), None);
    for name in ["MIN1", "MIN2", "MIN3", "SMAX"] {
        let place = NAMES.iter().position(|known| *known == name).unwrap();
        let value = Z[place - 6];
        assert_eq!(named(&[(name, value + 1)]), Some(name));
        assert_eq!(named(&[(name, value - 1)]), Some(name));
    }
    assert_eq!(named(&[("MIN1", 800)]), Some("MIN2"));
    assert_eq!(named(&[("MIN2", 1_000)]), Some("MIN3"));
    assert_eq!(named(&[("MIN3", 4_100)]), Some("SMAX"));
    assert_eq!(named(&[("SMAX", 800)]), Some("SMAX"));
}

#[test]
fn the_first_of_several() {
    assert_eq!(named(&[("P2", 5), ("P1", 5)]), Some("P1"));
    assert_eq!(named(&[("ID", 0), ("USEEXTERNAL", 2)]), Some("ID"));
    // A number out of its own range is named before one off the grid.
    assert_eq!(
        named(&[("P1", 1_000_005), ("USEEXTERNAL", 2)]),
        Some("USEEXTERNAL")
    );
    assert_eq!(named(&[("P1", 1_000_005), ("H", 0)]), Some("H"));
    assert_eq!(named(&[("P1", 1_000_005), ("LOT", 101)]), Some("LOT"));
    assert_eq!(named(&[("MIN2", 650), ("RH2", 1)]), Some("RH2"));
    assert_eq!(named(&[("MIN3", 650), ("MIN1", 501)]), Some("MIN1"));
    // An RH2 of 0 is out of its own range, and not only below RH1.
    assert_eq!(named(&[("RH2", 0), ("TENTATIVE", 650)]), Some("RH2"));
}

#[test]
fn a_number_is_named_exactly_where_the_admission_is_refused() {
    let script = script::evening::script(3, 20_000);
    let (mut taken, mut refused) = (0, 0);
    admissions(&script[..], |given, number| {
        assert_eq!(at_fault(given).is_none(), admitted(given).is_some());
        assert_eq!(at_fault(given).is_some(), number == 4);
        taken += usize::from(number == 0);
        refused += usize::from(number == 4);
    })
    .unwrap();
    assert!(taken > 500 && refused > 200, "{taken} {refused}");
}

fn said(script: &str) -> Vec<String> {
    let mut output = Vec::new();
    why::evening(script.as_bytes(), &mut output).unwrap();
    let text = String::from_utf8(output).unwrap();
    text.lines().map(str::to_string).collect()
}

#[test]
fn the_program() {
    let line = |changes: &[(&str, i64)]| {
        let all = numbers(&changed(changes)).map(|number| number.to_string());
        format!("admit {}\n", all.join(" "))
    };
    let script = [
        line(&[("ID", 0)]),
        line(&[("USEEXTERNAL", 2)]),
        line(&[("P1", 1_000_005)]),
        line(&[]),
        line(&[]),
        line(&[("TENTATIVE", 101_000)]),
        "admit 7\n".to_string(),
    ]
    .concat();
    let expected = [
        "4 field 1",
        "4 field 32",
        "4 field 3",
        "0",
        "2",
        "4 field 6",
        "bad 7",
    ];
    assert_eq!(said(&script), expected);
}
