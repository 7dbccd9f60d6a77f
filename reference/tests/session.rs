//! The evening session (W-210): openings, the evening's moves and seconds, and
//! what an evaluation ends. Z has u 60, 120 seconds in the evening, and at most
//! two evening moves.

mod common;

use common::{
    admission, day, quote, traded, z_with, AUTOCHANGE, EVENING_MAXIMUM, EVENING_SECONDS, MONITORING,
};
use reference::desk::{admit, evaluate, fresh_table, move_side, open, quote as take_quote, read};
use reference::protocol::evening;
use reference::record::{Record, Session};
use reference::refusal::Refusal;
use reference::security::{Admission, Quote};

const ID: i64 = 7;
/// Case 6: a bid that is near the top of case 1, and an ask near its bottom.
const NEAR_BID: i64 = 1_062_970;
const NEAR_ASK: i64 = 997_030;

fn number<T>(result: Result<T, Refusal>) -> i64 {
    result.map_or_else(|refusal| refusal.number(), |_| 0)
}

/// A table of one security that document 01's case 1 made live.
fn live_with(changes: &[(usize, i64)]) -> Vec<Record> {
    let mut table = fresh_table(1);
    let given = Admission {
        statics: z_with(changes),
        ..admission(1_000_000, 600)
    };
    admit(&mut table, &given).unwrap();
    evaluate(&mut table, ID, &day(1, &traded(1_030_000))).unwrap();
    table
}

fn opened_with(changes: &[(usize, i64)]) -> Vec<Record> {
    let mut table = live_with(changes);
    open(&mut table, ID).unwrap();
    table
}

fn quoted(table: &mut [Record], quote: &Quote) -> (bool, bool) {
    let alerts = take_quote(table, ID, quote).unwrap();
    (alerts.top, alerts.bottom)
}

#[test]
fn an_opening_is_refused_1_10_and_19() {
    let mut table = fresh_table(2);
    assert_eq!(number(open(&mut table, ID)), 1);
    admit(&mut table, &admission(1_000_000, 600)).unwrap();
    let admitted_only = table.clone();
    assert_eq!(number(open(&mut table, 0)), 1);
    assert_eq!(number(open(&mut table, 8)), 1);
    assert_eq!(number(open(&mut table, ID)), 10);
    assert_eq!(table, admitted_only);
    // Not live comes before opened twice.
    table[0].session = Session::Evening(0);
    assert_eq!(number(open(&mut table, ID)), 10);
    table[0].session = Session::Main;
    evaluate(&mut table, ID, &day(1, &[])).unwrap();
    assert_eq!(number(open(&mut table, ID)), 0);
    let after = table.clone();
    assert_eq!(number(open(&mut table, ID)), 19);
    assert_eq!(table, after);
    assert_eq!(number(open(&mut fresh_table(513), ID)), 1);
}

#[test]
fn an_opening_clears_near_seconds_and_keeps_all_else() {
    let mut table = live_with(&[]);
    for side in [0, 0, 1] {
        move_side(&mut table, ID, side).unwrap();
    }
    for term in 0..3 {
        let near = Quote {
            term,
            ..quote(100 + term, 2_000_000, 1)
        };
        quoted(&mut table, &near);
    }
    let before = table[0];
    assert!(before.terms[2].near_top.is_some() && before.terms[0].near_bottom.is_some());
    let mut expected = before;
    for term in &mut expected.terms {
        term.near_top = None;
        term.near_bottom = None;
    }
    expected.session = Session::Evening(0);
    assert_eq!(open(&mut table, ID), Ok(&expected));
    assert_eq!(read(&table, ID), Ok(&expected));
    assert_eq!((expected.moves_upper, expected.moves_lower), (2, 1));
    assert_eq!(expected.last_second, 102);
}

#[test]
fn an_opening_asks_neither_monitoring_nor_autochange() {
    for changes in [[(MONITORING, 0)], [(AUTOCHANGE, 0)], [(EVENING_MAXIMUM, 0)]] {
        let mut table = live_with(&changes);
        assert_eq!(number(open(&mut table, ID)), 0);
        assert_eq!(number(open(&mut table, ID)), 19);
    }
}

#[test]
fn the_last_second_of_the_main_session_holds_in_the_evening() {
    let mut table = live_with(&[]);
    quoted(&mut table, &quote(68_400, 0, 0));
    open(&mut table, ID).unwrap();
    assert_eq!(number(take_quote(&mut table, ID, &quote(68_399, 0, 0))), 13);
    assert_eq!(number(take_quote(&mut table, ID, &quote(68_400, 0, 0))), 0);
}

/// The alerts of near quotes so many seconds after the first.
fn alerts_after(table: &mut [Record], start: i64, seconds: &[i64]) -> Vec<(bool, bool)> {
    quoted(table, &quote(start, NEAR_BID, NEAR_ASK));
    let near = |after: &i64| quoted(table, &quote(start + after, NEAR_BID, NEAR_ASK));
    seconds.iter().map(near).collect()
}

#[test]
fn an_alert_needs_the_seconds_of_its_session() {
    let (none, both) = ((false, false), (true, true));
    let mut main = live_with(&[]);
    let alerts = alerts_after(&mut main, 100, &[59, 60, 119, 120]);
    assert_eq!(alerts, [none, both, both, both]);
    let mut evening = opened_with(&[]);
    let alerts = alerts_after(&mut evening, 100, &[59, 60, 119, 120]);
    assert_eq!(alerts, [none, none, none, both]);
    // u above u of the evening.
    let shorter = [(EVENING_SECONDS, 30)];
    let alerts = alerts_after(&mut live_with(&shorter), 100, &[29, 30, 59, 60]);
    assert_eq!(alerts, [none, none, none, both]);
    let alerts = alerts_after(&mut opened_with(&shorter), 100, &[29, 30, 59, 60]);
    assert_eq!(alerts, [none, both, both, both]);
}

#[test]
fn a_near_second_before_the_opening_does_not_count() {
    let mut table = live_with(&[]);
    quoted(&mut table, &quote(100, NEAR_BID, NEAR_ASK));
    open(&mut table, ID).unwrap();
    let none = (false, false);
    // 500 seconds since the first near quote, and none since the opening.
    assert_eq!(quoted(&mut table, &quote(600, NEAR_BID, NEAR_ASK)), none);
    assert_eq!(quoted(&mut table, &quote(719, NEAR_BID, NEAR_ASK)), none);
    let both = (true, true);
    assert_eq!(quoted(&mut table, &quote(720, NEAR_BID, NEAR_ASK)), both);
}

#[test]
fn the_maximum_counts_moves_of_both_sides() {
    for maximum in [0, 1, 2, 9, 10] {
        for sides in [[0, 0], [1, 1], [0, 1], [1, 0]] {
            let mut table = opened_with(&[(EVENING_MAXIMUM, maximum)]);
            for made in 0..maximum {
                assert_eq!(table[0].session, Session::Evening(made));
                let side = sides[made as usize % 2];
                assert_eq!(number(move_side(&mut table, ID, side)), 0);
            }
            let after = table.clone();
            for side in [0, 1] {
                assert_eq!(number(move_side(&mut table, ID, side)), 18);
            }
            assert_eq!(table, after);
            assert_eq!(table[0].session, Session::Evening(maximum));
            assert_eq!(table[0].moves_upper + table[0].moves_lower, maximum);
        }
    }
}

#[test]
fn without_autochange_the_evening_has_no_move() {
    for maximum in [0, 10] {
        let changes = [(AUTOCHANGE, 0), (EVENING_MAXIMUM, maximum)];
        let mut table = live_with(&changes);
        assert_eq!(number(move_side(&mut table, ID, 0)), 0);
        open(&mut table, ID).unwrap();
        assert_eq!(number(move_side(&mut table, ID, 0)), 18);
        assert_eq!(number(move_side(&mut table, ID, 1)), 18);
    }
}

#[test]
fn a_main_move_is_no_evening_move() {
    let mut table = live_with(&[]);
    for _ in 0..5 {
        assert_eq!(number(move_side(&mut table, ID, 1)), 0);
    }
    assert_eq!(table[0].session, Session::Main);
    open(&mut table, ID).unwrap();
    assert_eq!(table[0].session, Session::Evening(0));
    assert_eq!(number(move_side(&mut table, ID, 1)), 0);
    assert_eq!(
        (table[0].moves_lower, table[0].session),
        (6, Session::Evening(1))
    );
}

#[test]
fn fifty_moves_of_a_side_hold_over_both_sessions() {
    let with_main = |moves: i64| {
        let mut table = live_with(&[(EVENING_MAXIMUM, 10)]);
        (0..moves).for_each(|_| assert_eq!(number(move_side(&mut table, ID, 0)), 0));
        open(&mut table, ID).unwrap();
        table
    };
    // 39 and ten are 49: the evening's moves are used up, and a side has one left.
    let mut table = with_main(39);
    (0..10).for_each(|_| assert_eq!(number(move_side(&mut table, ID, 0)), 0));
    assert_eq!(number(move_side(&mut table, ID, 0)), 18);
    assert_eq!(table[0].moves_upper, 49);
    // 40 and ten are 50: 18 comes before 12.
    let mut table = with_main(40);
    (0..10).for_each(|_| assert_eq!(number(move_side(&mut table, ID, 0)), 0));
    assert_eq!(number(move_side(&mut table, ID, 0)), 18);
    // 48 and two are 50: the evening has eight moves left, and the side none.
    let mut table = with_main(48);
    (0..2).for_each(|_| assert_eq!(number(move_side(&mut table, ID, 0)), 0));
    assert_eq!(number(move_side(&mut table, ID, 0)), 12);
    assert_eq!(table[0].session, Session::Evening(2));
    assert_eq!(number(move_side(&mut table, ID, 1)), 0);
    assert_eq!(table[0].session, Session::Evening(3));
    let mut table = with_main(50);
    assert_eq!(number(move_side(&mut table, ID, 0)), 12);
}

#[test]
fn refusals_of_an_evening_move_come_in_order() {
    let mut table = opened_with(&[(MONITORING, 0), (EVENING_MAXIMUM, 0)]);
    assert_eq!(number(move_side(&mut table, 8, 2)), 1);
    assert_eq!(number(move_side(&mut table, ID, 2)), 6);
    assert_eq!(number(move_side(&mut table, ID, 0)), 11);
    table[0].statics.monitoring = true;
    table[0].moves_upper = 50;
    assert_eq!(number(move_side(&mut table, ID, 0)), 18);
    table[0].statics.evening_maximum = 1;
    assert_eq!(number(move_side(&mut table, ID, 0)), 12);
}

#[test]
fn an_evaluation_ends_the_evening() {
    let mut table = opened_with(&[(EVENING_MAXIMUM, 1)]);
    assert_eq!(number(move_side(&mut table, ID, 0)), 0);
    let evening = table.clone();
    // A refused one does not.
    assert_eq!(number(evaluate(&mut table, ID, &day(1, &[]))), 5);
    assert_eq!(table, evening);
    assert_eq!(number(evaluate(&mut table, ID, &day(2, &[]))), 0);
    assert_eq!(table[0].session, Session::Main);
    assert_eq!((table[0].moves_upper, table[0].last_second), (0, 0));
    for _ in 0..3 {
        assert_eq!(number(move_side(&mut table, ID, 0)), 0);
    }
    assert_eq!(number(open(&mut table, ID)), 0);
    assert_eq!(table[0].session, Session::Evening(0));
}

#[test]
fn an_evening_of_other_moves_is_damaged() {
    for moves in [0, 1, 2, 3, 10] {
        let mut table = opened_with(&[]);
        table[0].session = Session::Evening(moves);
        assert_eq!(number(read(&table, ID)), 0);
        // Two or more have reached the maximum.
        let expected = if moves < 2 { 0 } else { 18 };
        assert_eq!(number(move_side(&mut table, ID, 0)), expected);
    }
    for moves in [-1, 11, i64::MIN, i64::MAX] {
        let mut table = opened_with(&[]);
        table[0].session = Session::Evening(moves);
        assert_eq!(number(read(&table, ID)), 1);
        assert_eq!(number(open(&mut table, ID)), 1);
        assert_eq!(number(move_side(&mut table, ID, 0)), 1);
    }
    for (seconds, maximum) in [(0, 2), (3_601, 2), (60, -1), (60, 11)] {
        let mut table = opened_with(&[]);
        table[0].statics.evening_seconds = seconds;
        table[0].statics.evening_maximum = maximum;
        assert_eq!(number(read(&table, ID)), 1);
    }
}

#[test]
fn the_text_of_an_evening() {
    let script = "admit 7 0 1000000 1000000 20000 600 10 100 300 1000 500 5 2 5 8 50 \
500 700 900 4000 200 25 2000 2000 1000 60 1 1 120 1 2 0
open 7
evaluate 7 1 0 0 0 0 0 0 0 0 0 0 0 0 10000 0 1030000 0 0 1
open 7
open 7
quote 7 68400 0 1062970 0
quote 7 68519 0 1062970 0
quote 7 68520 0 1062970 0
move 7 0
move 7 1
move 7 1
evaluate 7 2 0 0 0 0 0 0 0 0 0 0 0 0 10000 0 1030000 0 0 1";
    let mut output = Vec::new();
    evening(script.as_bytes(), &mut output).unwrap();
    let text = String::from_utf8(output).unwrap();
    let answers: Vec<&str> = text.lines().collect();
    let live = "0 7 1 1 1030000 1000000 21214 700 0 800 1200 1500 \
1112400 1153600 1184500 947600 906400 875500 0 0 0 988800 1071200 -1 -1 \
0 0 0 988800 1071200 -1 -1 0 0 0 988800 1071200 -1 -1 0 0 0";
    // Case 5, then the lower side: delta is 2·25/100·800/10,000·1,030,000/2 or
    // 20,600, and the bottom 1,030,000·(1 - 1.5·0.08/2) or 968,200.
    let upper = "0 7 1 1 1030000 1000000 21214 700 0 800 1200 1500 \
1133000 1174200 1205100 947600 906400 875500 0 0 0 988800 1091800 -1 -1 \
0 0 0 988800 1091800 -1 -1 0 0 0 988800 1091800 -1 -1 1 0 68520 1 1 0 0";
    let both = "0 7 1 1 1030000 1000000 21214 700 0 800 1200 1500 \
1133000 1174200 1205100 927000 885800 854900 0 0 0 968200 1091800 -1 -1 \
0 0 0 968200 1091800 -1 -1 0 0 0 968200 1091800 -1 -1 1 1 68520 1 2 0 0";
    assert_eq!(answers[..3], ["0", "10", &format!("{live} 0 0 0 0")]);
    assert_eq!(answers[3..5], [&format!("{live} 1 0 0 0"), "19"]);
    assert_eq!(answers[5..8], ["0 0 0", "0 0 0", "0 1 0"]);
    assert_eq!(answers[8..11], [upper, both, "18"]);
    assert!(answers[11].starts_with("0 7 1 2 ") && answers[11].ends_with(" 0 0 0 0 0 0 0"));
}
