//! W-207: each reason is named exactly where it is the first that holds, and a
//! refusal names the first row, else the first term, at fault.

mod common;

use common::{admission, day, security, traded, z_with, IS_EWMA, NO_REPO};
use reference::protocol;
use reference::record::Record;
use reference::refusal::Refusal;
use reference::replay::evaluations;
use reference::script;
use reference::security::{admitted, Admission, Day, RepoTerm};
use reference::why::{evening, why, Fault, Figures, Level, Price, Tentative, Weight};

/// Places in Z.
const MIN1: usize = 10;
const MIN3: usize = 12;
const S_MAX: usize = 13;
const PCH_MAX: usize = 16;

fn price(rows: &[[i64; 7]]) -> Price {
    let record = security(1_000_000, 600);
    why(Some(&record), &day(1, &rows.concat())).unwrap().price
}

/// A rouble row of a close, a bid, an ask and a volume.
fn row(close: i64, bid: i64, ask: i64, volume: i64) -> [i64; 7] {
    [0, 10_000, 0, close, bid, ask, volume]
}

#[test]
fn the_figure_that_sets_the_price() {
    let p = 1_000_000;
    assert_eq!(price(&[row(p + 10, 0, 0, 1)]), Price::Close);
    assert_eq!(price(&[row(p, p + 10, 0, 1)]), Price::Bid);
    assert_eq!(price(&[row(p, 0, p - 10, 1)]), Price::Ask);
    assert_eq!(price(&[]), Price::Yesterday);
    assert_eq!(price(&[row(p + 10, p - 10, p + 10, 0)]), Price::Yesterday);
    // Two or three are the price: the earlier is named.
    assert_eq!(price(&[row(p + 10, p + 10, 0, 1)]), Price::Close);
    assert_eq!(price(&[row(p + 10, 0, p + 10, 1)]), Price::Close);
    assert_eq!(price(&[row(p, p, p, 1)]), Price::Close);
    assert_eq!(price(&[row(p - 10, p + 10, p + 10, 1)]), Price::Bid);
    assert_eq!(price(&[row(0, p, 0, 0)]), Price::Bid);
    assert_eq!(price(&[row(0, 0, p, 0)]), Price::Ask);
    assert_eq!(price(&[row(0, p, p, 0)]), Price::Bid);
    // A volume that rounds to no weight is no close.
    let weightless = [0, 4_999, 0, 2 * p, 0, 0, 1];
    assert_eq!(price(&[weightless]), Price::Yesterday);
    // The price before the grid decides: 1,003,125 on a grid of 10.
    assert_eq!(price(&[row(1_003_125, 1_003_130, 0, 1)]), Price::Bid);
    assert_eq!(price(&[row(1_003_125, 1_003_120, 0, 1)]), Price::Close);
}

#[test]
fn the_two_questions_of_the_mission() {
    // Case 7: a move a third of a millionth over 20,000.
    let of = |price: i64| {
        let record = security(300_000_000, 600);
        let rows = traded(price);
        why(Some(&record), &day(1, &rows)).unwrap().model.unwrap()
    };
    assert_eq!(of(306_000_100).weight, Weight::Up);
    assert_eq!(of(306_000_100).tentative, Tentative::Rose);
    assert_eq!(of(306_000_000).weight, Weight::Down);
    assert_eq!(of(306_000_000).tentative, Tentative::Level);
    // Case 9: t 100 and a tentative rate of 700, of age 3 and of age 4.
    let after = |age: i64| {
        let record = Record {
            s: 3_333,
            age,
            ..security(1_000_000, 700)
        };
        let day = Day {
            days_between: 2,
            ..day(1, &[])
        };
        why(Some(&record), &day).unwrap().model.unwrap()
    };
    assert_eq!(after(3).tentative, Tentative::Waited);
    assert_eq!(after(4).tentative, Tentative::Fell);
    assert_eq!(after(4).weight, Weight::Zero);
}

#[test]
fn the_replacement_wins_strictly() {
    // Case 8, and the same move from a volatility at which both are 66,667.
    let of = |s: i64| {
        let mut record = security(1_000_000, 600);
        record.statics.a_up = 0;
        record.s = s;
        why(Some(&record), &day(1, &traded(1_200_000)))
            .unwrap()
            .model
            .unwrap()
            .is_replaced
    };
    assert!(of(66_666));
    assert!(!of(66_667));
}

/// The figures of the paper's security, its volatility s and weight a_up, on a
/// day with so many holidays behind it.
fn figures(s: i64, a_up: i64, holidays: i64, price: i64) -> [i64; 6] {
    let mut record = security(1_000_000, 600);
    record.s = s;
    record.statics.a_up = a_up;
    let rows = traded(price);
    let day = Day {
        days_between: holidays,
        ..day(1, &rows)
    };
    let Figures {
        r,
        s_before,
        x,
        y,
        s,
        t,
    } = why(Some(&record), &day).unwrap().model.unwrap().figures;
    [r, s_before, x, y, s, t]
}

#[test]
fn the_figures_that_decided() {
    // Case 1: a move of 3 per cent, and the root of 0.9·20,000² + 0.1·30,000².
    let case_1 = [30_000, 20_000, 21_214, 0, 21_214, 700];
    assert_eq!(figures(20_000, 1_000, 0, 1_030_000), case_1);
    // Case 8: 20 per cent are above S_1, 5 per cent; the replacement wins, and t
    // covers the move.
    let case_8 = [200_000, 20_000, 66_031, 66_667, 66_667, 2_000];
    assert_eq!(figures(20_000, 1_000, 0, 1_200_000), case_8);
    // It stands and does not win: on a tie t is of the volatility.
    let tie = [200_000, 66_667, 66_667, 66_667, 66_667, 2_100];
    assert_eq!(figures(66_667, 0, 1, 1_200_000), tie);
    let loses = [200_000, 90_000, 90_000, 66_667, 90_000, 2_700];
    assert_eq!(figures(90_000, 0, 0, 1_200_000), loses);
    // After two holidays the move has no weight, and there is no replacement.
    let holidays = [200_000, 20_000, 20_000, 0, 20_000, 600];
    assert_eq!(figures(20_000, 1_000, 2, 1_200_000), holidays);
    // S_1 is 500: a move of 5 per cent is not above it.
    let at_rate = [50_000, 20_000, 24_699, 0, 24_699, 800];
    assert_eq!(figures(20_000, 1_000, 0, 1_050_000), at_rate);
    assert_eq!(figures(0, 1_000, 0, 1_000_000), [0; 6]);
}

#[test]
fn the_figures_are_those_of_the_record() {
    let script = script::evening::script(2, 5_000);
    let mut seen = 0;
    evaluations(&script[..], |evaluation| {
        let (before, after) = match (evaluation.before, evaluation.after) {
            (Some(before), Some(after)) if evaluation.number == 0 => (before, after),
            _ => return,
        };
        let reasons = why(Some(&before), &evaluation.asked.day()).unwrap();
        assert_eq!(reasons.model.is_some(), before.statics.is_ewma);
        if let Some(model) = reasons.model {
            let figures = model.figures;
            assert_eq!((figures.s_before, figures.s), (before.s, after.s));
            assert_eq!(figures.s, figures.x.max(figures.y));
            assert_eq!(model.is_replaced, figures.y > figures.x);
            match model.tentative {
                Tentative::Rose => assert_eq!(figures.t, after.tentative),
                Tentative::Fell => assert!(figures.t <= after.tentative),
                Tentative::Waited => assert!(figures.t < after.tentative),
                Tentative::Level => assert_eq!(after.tentative, before.tentative),
            }
            seen += 1;
        }
    })
    .unwrap();
    assert!(seen > 500, "{seen}");
}

#[test]
fn what_sets_a_level() {
    use Level::{Maximum, Minimum, Requirement};
    // s 20,000 keeps the tentative rate at 600: 650, 1,027.7 and 1,300 are
    // required, so 700, 1,100 and 1,300.
    let levels = |changes: &[(usize, i64)]| {
        let given = Admission {
            statics: z_with(changes),
            ..admission(1_000_000, 600)
        };
        let record = admitted(&given).unwrap();
        why(Some(&record), &day(1, &[])).unwrap().levels
    };
    let minima = |min: i64| [(MIN1, min), (MIN1 + 1, min), (MIN3, min)];
    let with = |min: i64, s_max: i64| levels(&[&minima(min)[..], &[(S_MAX, s_max)]].concat());
    assert_eq!(with(0, 4_000), [Requirement; 3]);
    assert_eq!(with(700, 4_000), [Requirement; 3]);
    assert_eq!(with(800, 4_000), [Minimum, Requirement, Requirement]);
    assert_eq!(with(1_400, 4_000), [Minimum; 3]);
    // S_max covers it exactly, or by its step, or does not.
    assert_eq!(with(0, 1_300), [Requirement; 3]);
    assert_eq!(with(0, 1_200), [Requirement, Requirement, Maximum]);
    assert_eq!(with(0, 700), [Requirement, Maximum, Maximum]);
    // Minimum and maximum are one: the minimum is named, unless it covers.
    assert_eq!(with(1_200, 1_200), [Minimum, Minimum, Minimum]);
    assert_eq!(with(700, 700), [Requirement, Minimum, Minimum]);
    assert_eq!(with(1_300, 1_300), [Minimum, Minimum, Requirement]);
}

#[test]
fn without_the_model_each_level_is_the_minimum() {
    let given = Admission {
        statics: z_with(&[(IS_EWMA, 0)]),
        ..admission(1_000_000, 600)
    };
    let record = admitted(&given).unwrap();
    let reasons = why(Some(&record), &day(1, &traded(1_030_000))).unwrap();
    assert_eq!(reasons.model, None);
    assert_eq!(reasons.levels, [Level::Minimum; 3]);
    assert_eq!(
        reasons.to_string(),
        "0 price close weight none replacement none tentative none \
level1 minimum level2 minimum level3 minimum"
    );
}

/// What a day of the paper's security is refused by.
fn refused(day: &Day) -> (Refusal, Fault) {
    why(Some(&security(1_000_000, 600)), day).unwrap_err()
}

#[test]
fn a_row_or_a_term_out_of_range() {
    let bad_row = [31, 10_000, 0, 1_000_000, 0, 0, 1];
    let good_row = traded(1_000_000);
    let bad_term = RepoTerm {
        days: 0,
        rrcl: 1,
        rrch: 0,
    };
    let at = |rows: &[i64], terms: [RepoTerm; 3], days_between: i64| {
        let day = Day {
            terms,
            days_between,
            ..day(1, rows)
        };
        let (refusal, fault) = refused(&day);
        assert_eq!(refusal, Refusal::ValueOutOfRange);
        fault
    };
    let fine = [NO_REPO; 3];
    let second = [NO_REPO, bad_term, bad_term];
    let rows = [good_row, good_row, bad_row, bad_row].concat();
    assert_eq!(at(&rows, fine, 0), Fault::Row(3));
    assert_eq!(at(&rows, second, 0), Fault::Row(3));
    assert_eq!(at(&rows, fine, 31), Fault::Row(3));
    assert_eq!(at(&good_row, second, 31), Fault::Term(1));
    assert_eq!(at(&good_row, fine, 31), Fault::None);
    // Of a wrong length no row is looked at.
    assert_eq!(at(&rows[..27], second, 0), Fault::Term(1));
    assert_eq!(at(&rows[..27], fine, 0), Fault::None);
    assert_eq!(at(&bad_row.repeat(16), fine, 0), Fault::Row(1));
    assert_eq!(at(&bad_row.repeat(17), fine, 0), Fault::None);
    let last = [good_row.repeat(15), bad_row.to_vec()].concat();
    assert_eq!(at(&last, fine, 0), Fault::Row(16));
}

#[test]
fn the_other_refusals() {
    let good_row = traded(1_000_000);
    let crossed = [0, 10_000, 0, 1_000_000, 1_000_010, 1_000_000, 1];
    let rows = [good_row, crossed, crossed].concat();
    assert_eq!(
        refused(&day(1, &rows)),
        (Refusal::CrossedRow, Fault::Row(2))
    );
    // A price that rounds to 0, and a volume above 10^8.
    let none = [0, 1, 0, 1, 0, 0, 0];
    let great = [0, 20_000, 0, 500_000, 0, 0, 100_000_000];
    for unfit in [none, great] {
        let rows = [good_row, good_row, unfit, none].concat();
        let expected = (Refusal::EvaluationOutOfRange, Fault::Row(3));
        assert_eq!(refused(&day(1, &rows)), expected);
        assert_eq!(
            refused(&day(0, &rows)),
            (Refusal::DayNotAfterLast, Fault::None)
        );
    }
    // Each row fits, but 4 is 0 on a grid of 10.
    let expected = (Refusal::EvaluationOutOfRange, Fault::None);
    assert_eq!(refused(&day(1, &traded(4))), expected);
    let expected = (Refusal::MoveTooGreat, Fault::None);
    assert_eq!(refused(&day(1, &traded(2_000_010))), expected);
    assert_eq!(
        why(None, &day(1, &[31])),
        Err((Refusal::NoSuchId, Fault::None))
    );
}

#[test]
fn the_first_crossed_term() {
    let given = Admission {
        statics: z_with(&[(PCH_MAX, 0)]),
        ..admission(1_000_000, 600)
    };
    let record = admitted(&given).unwrap();
    // 9,999 bp for 30 days raise the lower limit of 0.965 to 1.044, above 1.
    let crossed = RepoTerm {
        days: 30,
        rrcl: 9_999,
        rrch: 9_999,
    };
    for (terms, term) in [
        ([crossed, NO_REPO, NO_REPO], 0),
        ([NO_REPO, crossed, crossed], 1),
        ([NO_REPO, NO_REPO, crossed], 2),
    ] {
        let day = Day {
            terms,
            ..day(1, &[])
        };
        let expected = Err((Refusal::BandCrossed, Fault::Term(term)));
        assert_eq!(why(Some(&record), &day), expected);
    }
}

fn said(script: &[u8]) -> Vec<String> {
    let mut output = Vec::new();
    evening(script, &mut output).unwrap();
    let text = String::from_utf8(output).unwrap();
    text.lines().map(str::to_string).collect()
}

#[test]
fn the_program() {
    let script = "admit 7 0 1000000 1000000 20000 600 10 100 300 1000 500 5 2 5 8 50 \
500 700 900 4000 200 25 2000 2000 1000 60 1 1 120 1 2 0
evaluate 7 1 0 0 0 0 0 0 0 0 0 0 0 0 10000 0 1030000 0 0 1
evaluate 7 1 0 0 0 0 0 0 0 0 0 0 0
evaluate 7 2 0 0 0 0 0 0 0/1 0 0 0
evaluate 8 2 0 0 0 0 0 0 0/1 0 0 0
evaluate 7 2
move 7 2
quote 7 0 0 0 0
open 8
open 7
open 7";
    let expected = [
        "0",
        "0 price close weight up replacement no tentative rose \
level1 requirement level2 requirement level3 requirement \
figures 30000 20000 21214 0 21214 700",
        "5 none",
        "6 term 1",
        "1 none",
        "bad 6",
        "6",
        "0 0 0",
        "1",
        "0 7 1 1 1030000 1000000 21214 700 0 800 1200 1500 \
1112400 1153600 1184500 947600 906400 875500 0 0 0 988800 1071200 -1 -1 \
0 0 0 988800 1071200 -1 -1 0 0 0 988800 1071200 -1 -1 0 0 0 1 0 0 0",
        "19",
    ];
    assert_eq!(said(script.as_bytes()), expected);
}

#[test]
fn why_and_the_evening_agree_on_every_number() {
    let script = script::evening::script(1, 5_000);
    let mut answers = Vec::new();
    protocol::evening(&script[..], &mut answers).unwrap();
    let answers = String::from_utf8(answers).unwrap();
    let first = |line: &str| line.split(' ').next().map(str::to_string);
    let reasons = said(&script);
    assert_eq!(reasons.len(), answers.lines().count());
    for (answer, reason) in answers.lines().zip(&reasons) {
        assert_eq!(first(answer), first(reason));
    }
}
