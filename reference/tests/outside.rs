//! Outside prices (W-211): what is kept, what refuses, and the evaluation that
//! takes them. Z has UseEXTERNAL no.

mod common;

use common::{admission, day, quote, traded, z_with, LOT, MONITORING, USE_EXTERNAL};
use reference::desk::{
    admit, evaluate, fresh_table, move_side, notice, open, quote as take_quote, read, send,
    withdraw,
};
use reference::outside::Outside;
use reference::protocol::evening;
use reference::record::Record;
use reference::refusal::Refusal;
use reference::security::Admission;
use reference::why::{why, Price};

const ID: i64 = 7;
const BID: i64 = 0;
const ASK: i64 = 1;

/// The bits of a float, as a signed number.
fn bits(float: f64) -> i64 {
    float.to_bits() as i64
}

fn number<T>(result: Result<T, Refusal>) -> i64 {
    result.map_or_else(|refusal| refusal.number(), |_| 0)
}

/// A table of one security that is admitted at 100 roubles.
fn admitted_with(changes: &[(usize, i64)]) -> Vec<Record> {
    let mut table = fresh_table(1);
    let given = Admission {
        statics: z_with(changes),
        ..admission(1_000_000, 600)
    };
    admit(&mut table, &given).unwrap();
    table
}

fn pair(bid: i64, ask: i64) -> Outside {
    Outside { bid, ask }
}

/// Floats that have no price.
fn bad_floats() -> [i64; 8] {
    let nan = f64::NAN;
    let floats = [
        0.0,
        -0.0,
        -1.0,
        f64::INFINITY,
        nan,
        0.000_049,
        1e6 + 0.0001,
        f64::MAX,
    ];
    floats.map(bits)
}

#[test]
fn each_call_changes_what_it_says_and_returns_the_record() {
    let mut table = admitted_with(&[]);
    let before = table[0];
    assert_eq!(before.outside, Outside::NONE);
    let with = |outside| Record { outside, ..before };
    let sent = send(&mut table, ID, bits(99.5), bits(103.25)).copied();
    assert_eq!(sent, Ok(with(pair(995_000, 1_032_500))));
    let bid = notice(&mut table, ID, BID, bits(103.0)).copied();
    assert_eq!(bid, Ok(with(pair(1_030_000, 1_032_500))));
    // A tie, 1,000,312.5 units, goes up; the bid may stand above the ask.
    let ask = notice(&mut table, ID, ASK, bits(100.031_25)).copied();
    assert_eq!(ask, Ok(with(pair(1_030_000, 1_000_313))));
    assert_eq!(read(&table, ID).copied(), ask);
    assert_eq!(withdraw(&mut table, ID).copied(), Ok(before));
    let ask = notice(&mut table, ID, ASK, bits(1.0)).copied();
    assert_eq!(ask, Ok(with(pair(0, 10_000))));
    assert_eq!(withdraw(&mut table, ID).copied(), Ok(before));
    assert_eq!(withdraw(&mut table, ID).copied(), Ok(before));
}

#[test]
fn a_float_without_a_price_is_20_and_the_pair_stays() {
    for kept in [(0.0, 0.0), (99.0, 0.0), (0.0, 101.0), (99.0, 101.0)] {
        let mut table = admitted_with(&[]);
        for (side, float) in [(BID, kept.0), (ASK, kept.1)] {
            if float > 0.0 {
                notice(&mut table, ID, side, bits(float)).unwrap();
            }
        }
        let before = table.clone();
        for bad in bad_floats() {
            assert_eq!(number(send(&mut table, ID, bad, bits(100.0))), 20);
            assert_eq!(number(send(&mut table, ID, bits(100.0), bad)), 20);
            assert_eq!(number(send(&mut table, ID, bad, bad)), 20);
            assert_eq!(number(notice(&mut table, ID, BID, bad)), 20);
            assert_eq!(number(notice(&mut table, ID, ASK, bad)), 20);
            assert_eq!(table, before);
        }
    }
}

#[test]
fn one_comes_before_6_and_6_before_20() {
    let mut table = admitted_with(&[]);
    let good = bits(100.0);
    for id in [0, 8, -7] {
        assert_eq!(number(send(&mut table, id, good, good)), 1);
        assert_eq!(number(send(&mut table, id, 0, good)), 1);
        assert_eq!(number(notice(&mut table, id, BID, good)), 1);
        assert_eq!(number(notice(&mut table, id, BID, 0)), 1);
        assert_eq!(number(notice(&mut table, id, 2, 0)), 1);
        assert_eq!(number(withdraw(&mut table, id)), 1);
    }
    for side in [-1, 2, i64::MIN, i64::MAX] {
        assert_eq!(number(notice(&mut table, ID, side, good)), 6);
        assert_eq!(number(notice(&mut table, ID, side, 0)), 6);
    }
    let mut too_long = fresh_table(513);
    assert_eq!(number(send(&mut too_long, ID, good, good)), 1);
    assert_eq!(number(withdraw(&mut too_long, ID)), 1);
}

#[test]
fn a_record_with_another_outside_price_is_damaged() {
    let most = 10_000_000_000;
    for (outside, is_sound) in [
        (pair(0, 0), true),
        (pair(most, most), true),
        (pair(1, 0), true),
        (pair(-1, 0), false),
        (pair(0, -1), false),
        (pair(most + 1, 0), false),
        (pair(0, most + 1), false),
        (pair(i64::MIN, i64::MAX), false),
    ] {
        let mut table = admitted_with(&[]);
        table[0].outside = outside;
        assert_eq!(number(read(&table, ID)) == 0, is_sound, "{outside:?}");
        assert_eq!(number(withdraw(&mut table, ID)) == 0, is_sound);
    }
}

#[test]
fn the_calls_ask_nothing_of_the_record_and_the_others_leave_the_pair() {
    for changes in [[(MONITORING, 1)], [(MONITORING, 0)], [(USE_EXTERNAL, 1)]] {
        let mut table = admitted_with(&changes);
        let kept = pair(999_999, 1_000_001);
        let all = |table: &mut Vec<Record>| {
            assert_eq!(number(withdraw(table, ID)), 0);
            assert_eq!(number(notice(table, ID, BID, bits(1.0))), 0);
            assert_eq!(number(notice(table, ID, ASK, bits(2.0))), 0);
            assert_eq!(number(send(table, ID, bits(99.9999), bits(100.0001))), 0);
            assert_eq!(table[0].outside, kept);
        };
        all(&mut table);
        evaluate(&mut table, ID, &day(1, &traded(1_000_000))).unwrap();
        assert_eq!(table[0].outside, kept);
        all(&mut table);
        let live = table[0];
        let is_monitored = live.statics.monitoring;
        assert_eq!(
            number(take_quote(&mut table, ID, &quote(1, 1, 1))) == 0,
            is_monitored
        );
        assert_eq!(number(move_side(&mut table, ID, 0)) == 0, is_monitored);
        assert_eq!(number(open(&mut table, ID)), 0);
        assert_eq!(table[0].outside, kept);
        all(&mut table);
        assert_eq!(number(evaluate(&mut table, ID, &day(1, &[]))), 5);
        assert_eq!(number(evaluate(&mut table, ID, &day(2, &[]))), 0);
        assert_eq!(table[0].outside, kept);
    }
}

/// The evaluation of a row with the pair kept, UseEXTERNAL yes and no; the pair
/// is set, so that each side may be none.
fn evaluations(outside: Outside, row: &[i64]) -> [i64; 2] {
    [1, 0].map(|flag| {
        let mut table = admitted_with(&[(USE_EXTERNAL, flag)]);
        table[0].outside = outside;
        evaluate(&mut table, ID, &day(1, row)).unwrap().p1
    })
}

/// A rouble row with a close and the two sides.
fn row(close: i64, bid: i64, ask: i64) -> [i64; 7] {
    [0, 10_000, 0, close, bid, ask, i64::from(close > 0)]
}

#[test]
fn bid_is_the_greater_and_ask_the_lesser() {
    let low = 900_000;
    for (outside, row, used, unused) in [
        // The outside bid against the book's, above the close.
        (
            pair(1_020_000, 0),
            row(low, 1_010_000, 0),
            1_020_000,
            1_010_000,
        ),
        (
            pair(1_000_000, 0),
            row(low, 1_010_000, 0),
            1_010_000,
            1_010_000,
        ),
        (pair(0, 0), row(low, 1_010_000, 0), 1_010_000, 1_010_000),
        (pair(1_020_000, 0), row(low, 0, 0), 1_020_000, low),
        // The outside ask against the book's, below the close.
        (
            pair(0, 980_000),
            row(1_100_000, 0, 990_000),
            980_000,
            990_000,
        ),
        (
            pair(0, 995_000),
            row(1_100_000, 0, 990_000),
            990_000,
            990_000,
        ),
        (pair(0, 980_000), row(1_100_000, 0, 0), 980_000, 1_100_000),
        // No row: yesterday's 1,000,000 is the close.
        (pair(1_020_000, 0), row(0, 0, 0), 1_020_000, 1_000_000),
        (pair(0, 980_000), row(0, 0, 0), 980_000, 1_000_000),
        (pair(990_000, 1_010_000), row(0, 0, 0), 1_000_000, 1_000_000),
        // The median, also when BID is above ASK.
        (
            pair(1_020_000, 980_000),
            row(1_005_000, 0, 0),
            1_005_000,
            1_005_000,
        ),
        (
            pair(1_020_000, 980_000),
            row(1_100_000, 0, 0),
            1_020_000,
            1_100_000,
        ),
        (pair(1_020_000, 980_000), row(low, 0, 0), 980_000, low),
        // An outside bid above the book's ask.
        (
            pair(1_020_000, 0),
            row(1_100_000, 0, 1_010_000),
            1_020_000,
            1_010_000,
        ),
        // The grid of 10: a tie goes up.
        (pair(1_020_005, 0), row(low, 0, 0), 1_020_010, low),
        (pair(1_020_004, 0), row(low, 0, 0), 1_020_000, low),
    ] {
        assert_eq!(evaluations(outside, &row), [used, unused], "{outside:?}");
    }
}

#[test]
fn outside_prices_are_roubles() {
    // A currency at 12.5000 and a bid of 8.0000: 100 roubles.
    let currency = [0, 125_000, 0, 0, 80_000, 0, 0];
    assert_eq!(
        evaluations(pair(1_000_010, 0), &currency),
        [1_000_010, 1_000_000]
    );
    assert_eq!(
        evaluations(pair(80_010, 0), &currency),
        [1_000_000, 1_000_000]
    );
}

#[test]
fn an_outside_price_may_be_refused_7_or_8_with_the_evaluation() {
    let numbers = |lot: i64, outside: Outside| {
        [1, 0].map(|flag| {
            let mut table = admitted_with(&[(LOT, lot), (USE_EXTERNAL, flag)]);
            table[0].outside = outside;
            number(evaluate(&mut table, ID, &day(1, &[])))
        })
    };
    assert_eq!(numbers(1, pair(0, 49)), [7, 0]);
    assert_eq!(numbers(1, pair(0, 50)), [0, 0]);
    assert_eq!(numbers(10, pair(2_000_000, 0)), [0, 0]);
    assert_eq!(numbers(10, pair(2_000_010, 0)), [8, 0]);
}

#[test]
fn crossed_rows_are_of_rows_alone() {
    let crossed = row(1_000_000, 1_000_010, 1_000_000);
    let mut table = admitted_with(&[(USE_EXTERNAL, 1)]);
    send(&mut table, ID, bits(101.0), bits(99.0)).unwrap();
    assert_eq!(number(evaluate(&mut table, ID, &day(1, &crossed))), 16);
    assert_eq!(number(evaluate(&mut table, ID, &day(1, &[]))), 0);
}

#[test]
fn why_speaks_of_bid_and_ask_so_formed() {
    let reason = |flag: i64, outside: Outside, row: &[i64]| {
        let mut table = admitted_with(&[(USE_EXTERNAL, flag)]);
        table[0].outside = outside;
        let why = why(Some(&table[0]), &day(1, row));
        why.map(|reasons| reasons.price).ok()
    };
    let traded = row(1_000_000, 0, 0);
    assert_eq!(reason(1, pair(1_030_000, 0), &traded), Some(Price::Bid));
    assert_eq!(reason(0, pair(1_030_000, 0), &traded), Some(Price::Close));
    assert_eq!(reason(1, pair(0, 970_000), &traded), Some(Price::Ask));
    assert_eq!(reason(1, pair(1_000_000, 0), &traded), Some(Price::Close));
    assert_eq!(reason(1, pair(1_000_000, 0), &[]), Some(Price::Bid));
    assert_eq!(reason(0, pair(1_000_000, 0), &[]), Some(Price::Yesterday));
    assert_eq!(reason(1, pair(999_999, 0), &[]), Some(Price::Yesterday));
    // The book's bid is below the outside one, and no longer the reason.
    let quoted = row(1_000_000, 1_010_000, 1_010_000);
    assert_eq!(reason(1, pair(1_030_000, 0), &quoted), Some(Price::Ask));
}

/// Document 01's case 1, whose close of 103 roubles is an outside bid here: the
/// close is 100, below it, and the ask of 103.25 above.
#[test]
fn the_text_of_case_1_by_an_outside_bid() {
    let script = format!(
        "admit 7 0 1000000 1000000 20000 600 10 100 300 1000 500 5 2 5 8 50 \
500 700 900 4000 200 25 2000 2000 1000 60 1 1 120 1 2 1
outside 7 {bid} {ask}
notice 7 0 0
notice 7 -1 0
evaluate 7 1 0 0 0 0 0 0 0 0 0 0 0 0 10000 0 1000000 0 0 1
withdraw 7
withdraw 8",
        bid = bits(103.0),
        ask = bits(103.25),
    );
    let mut output = Vec::new();
    evening(script.as_bytes(), &mut output).unwrap();
    let text = String::from_utf8(output).unwrap();
    let answers: Vec<&str> = text.lines().collect();
    let nothing = "0 0 0 0 0 -1 -1";
    let admitted = format!(
        "0 7 0 0 1000000 1000000 20000 600 0 500 700 900 0 0 0 0 0 0 \
{nothing} {nothing} {nothing} 0 0 0 0 0 1030000 1032500"
    );
    let case_1 = "0 7 1 1 1030000 1000000 21214 700 0 800 1200 1500 \
1112400 1153600 1184500 947600 906400 875500 0 0 0 988800 1071200 -1 -1 \
0 0 0 988800 1071200 -1 -1 0 0 0 988800 1071200 -1 -1 0 0 0 0 0";
    let kept = format!("{case_1} 1030000 1032500");
    let withdrawn = format!("{case_1} 0 0");
    assert_eq!(answers, ["0", &admitted, "20", "6", &kept, &withdrawn, "1"]);
}
