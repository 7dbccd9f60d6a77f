//! The refusal list of document 01, both sides of each range and the order.

mod common;

use common::{admission, day, quote, traded, z_with, LOT, MONITORING, NO_REPO, Z};
use reference::desk::{admit, evaluate, fresh_table, move_side, quote as take_quote, read};
use reference::record::{Record, Standing};
use reference::security::{Admission, Day, Quote, RepoTerm};

type Ends = (i64, i64);

fn refused<T>(result: Result<T, reference::refusal::Refusal>) -> i64 {
    result.map_or_else(|refusal| refusal.number(), |_| 0)
}

fn one_admitted() -> Vec<Record> {
    let mut table = fresh_table(2);
    admit(&mut table, &admission(1_000_000, 600)).unwrap();
    table
}

fn one_live() -> Vec<Record> {
    let mut table = one_admitted();
    evaluate(&mut table, 7, &day(1, &traded(1_030_000))).unwrap();
    table
}

fn admission_number(admission: &Admission) -> i64 {
    refused(admit(&mut fresh_table(1), admission))
}

fn day_number(day: &Day) -> i64 {
    refused(evaluate(&mut one_admitted(), 7, day))
}

fn row_number(row: &[i64]) -> i64 {
    day_number(&day(1, row))
}

/// Checks that both ends are accepted and both neighbours refused.
fn both_sides((low, high): Ends, refusal: i64, number: impl Fn(i64) -> i64) {
    for (value, expected) in [
        (low, 0),
        (high, 0),
        (low - 1, refusal),
        (high + 1, refusal),
        (i64::MIN, refusal),
        (i64::MAX, refusal),
    ] {
        assert_eq!(number(value), expected, "{value} of {low}..{high}");
    }
}

#[test]
fn statics_out_of_range_are_4() {
    let ends: [(usize, Ends); 21] = [
        (0, (1, 100)),
        (2, (100, 1_000)),
        (3, (0, 10_000)),
        (4, (0, 10_000)),
        (5, (1, 250)),
        (6, (1, 5)),
        (7, (2, 8)),
        (8, (5, 30)),
        (9, (0, 500)),
        (14, (50, 1_000)),
        (15, (1, 100)),
        (16, (0, 10_000)),
        (17, (0, 10_000)),
        (18, (0, 5_000)),
        (19, (1, 3_600)),
        (20, (0, 1)),
        (21, (0, 1)),
        (22, (1, 3_600)),
        (23, (0, 1)),
        (24, (0, 10)),
        (25, (0, 1)),
    ];
    for (place, ends) in ends {
        both_sides(ends, 4, |value| {
            admission_number(&Admission {
                statics: z_with(&[(place, value)]),
                ..admission(1_000_000, 600)
            })
        });
    }
}

#[test]
fn the_step_divides_every_rate() {
    let with = |step: i64, rates: [i64; 4], tentative| {
        let [first, second, third, s_max] = rates;
        admission_number(&Admission {
            statics: z_with(&[
                (1, step),
                (10, first),
                (11, second),
                (12, third),
                (13, s_max),
            ]),
            ..admission(1_000_000, tentative)
        })
    };
    both_sides((1, 1_000), 4, |step| with(step, [0; 4], 0));
    assert_eq!(with(1_000, [0, 1_000, 2_000, 10_000], 10_000), 0);
    assert_eq!(with(1_000, [0, 1_000, 2_000, 11_000], 10_000), 4);
    assert_eq!(with(100, [500, 700, 900, 4_000], 4_000), 0);
    // W-208: S_max does not hold the tentative rate.
    assert_eq!(with(100, [500, 700, 900, 4_000], 4_100), 0);
    for (step, top) in [(1, 100_000), (7, 100_002), (999, 100_899), (1_000, 100_000)] {
        assert_eq!(with(step, [0; 4], top), 0, "{step}");
        assert_eq!(with(step, [0; 4], top + step), 4, "{step}");
        assert_eq!(with(step, [0; 4], top + 1), 4, "{step}");
    }
    assert_eq!(with(7, [0; 4], 100_000), 4);
    assert_eq!(with(100, [500, 700, 900, 4_000], 650), 4);
    assert_eq!(with(100, [500, 700, 900, 4_000], -100), 4);
    assert_eq!(with(100, [550, 700, 900, 4_000], 600), 4);
    assert_eq!(with(100, [500, 750, 900, 4_000], 600), 4);
    assert_eq!(with(100, [500, 700, 950, 4_000], 600), 4);
    assert_eq!(with(100, [500, 700, 900, 4_050], 600), 4);
    assert_eq!(with(100, [700, 700, 700, 700], 600), 0);
    assert_eq!(with(100, [800, 700, 900, 4_000], 600), 4);
    assert_eq!(with(100, [500, 1_000, 900, 4_000], 600), 4);
    assert_eq!(with(100, [500, 700, 900, 800], 600), 4);
    assert_eq!(with(100, [-100, 700, 900, 4_000], 600), 4);
}

#[test]
fn other_admission_values_out_of_range_are_4() {
    let given = || admission(1_000_000, 600);
    both_sides((1, 1_000_000_000), 4, |id| {
        admission_number(&Admission { id, ..given() })
    });
    both_sides((0, 1_000_000), 4, |day| {
        admission_number(&Admission { day, ..given() })
    });
    both_sides((0, 1_000_000), 4, |s| {
        admission_number(&Admission { s, ..given() })
    });
    for (lot, grid) in [(1, 100), (2, 10), (10, 10), (11, 1), (100, 1)] {
        let statics = z_with(&[(LOT, lot)]);
        let with = |p1, p2| {
            admission_number(&Admission {
                p1,
                p2,
                statics,
                ..given()
            })
        };
        for (price, expected) in [
            (grid, 0),
            (10_000_000_000, 0),
            (0, 4),
            (-grid, 4),
            (10_000_000_000 + grid, 4),
            (1_000_000 + grid / 2, if grid == 1 { 0 } else { 4 }),
            (1_000_001, if grid == 1 { 0 } else { 4 }),
        ] {
            assert_eq!(with(price, 1_000_000), expected, "P1 {price}, lot {lot}");
            assert_eq!(with(1_000_000, price), expected, "P2 {price}, lot {lot}");
        }
    }
}

#[test]
fn admission_is_refused_4_then_2_then_3() {
    let mut table = fresh_table(1);
    let first = admission(1_000_000, 600);
    assert_eq!(refused(admit(&mut table, &first)), 0);
    let (other, wrong) = (Admission { id: 8, ..first }, Admission { s: -1, ..first });
    assert_eq!(refused(admit(&mut table, &wrong)), 4);
    assert_eq!(refused(admit(&mut table, &first)), 2);
    assert_eq!(refused(admit(&mut table, &other)), 3);
}

#[test]
fn admission_takes_the_first_empty_slot() {
    let mut table = fresh_table(3);
    table[0].id = 5;
    table[1].s = -3;
    admit(&mut table, &admission(1_000_000, 600)).unwrap();
    assert_eq!(table[1], common::security(1_000_000, 600));
    assert_eq!(table[2], Record::EMPTY);
    let damaged = Admission {
        id: 5,
        ..admission(1_000_000, 600)
    };
    assert_eq!(refused(admit(&mut table, &damaged)), 2);
}

#[test]
fn a_table_has_1_to_512_slots() {
    for (slots, known) in [(0, false), (1, true), (512, true), (513, false)] {
        let mut table = fresh_table(slots);
        let number = refused(admit(&mut table, &admission(1_000_000, 600)));
        assert_eq!(number, if known { 0 } else { 4 }, "{slots}");
        if let Some(slot) = table.first_mut() {
            *slot = common::security(1_000_000, 600);
        }
        let here = if known { 0 } else { 1 };
        assert_eq!(refused(read(&table, 7)), here, "{slots}");
        assert_eq!(refused(evaluate(&mut table, 7, &day(1, &[]))), here);
        assert_eq!(refused(take_quote(&mut table, 7, &quote(0, 0, 0))), here);
        assert_eq!(refused(move_side(&mut table, 7, 0)), here);
    }
}

#[test]
fn an_unknown_id_is_1_before_all_else() {
    let mut table = one_live();
    for id in [0, 8, -7, i64::MIN, i64::MAX] {
        assert_eq!(refused(read(&table, id)), 1);
        assert_eq!(refused(evaluate(&mut table, id, &day(-1, &[1]))), 1);
        assert_eq!(refused(take_quote(&mut table, id, &quote(-1, 0, 0))), 1);
        assert_eq!(refused(move_side(&mut table, id, 9)), 1);
    }
}

#[test]
fn the_first_of_an_id_counts_even_if_damaged() {
    let mut table = one_live();
    table[1] = table[0];
    assert_eq!(refused(read(&table, 7)), 0);
    table[0].age = 251;
    assert_eq!(refused(read(&table, 7)), 1);
    assert_eq!(refused(evaluate(&mut table, 7, &day(2, &[]))), 1);
    table[0].age = 250;
    table[1].age = 251;
    assert_eq!(refused(read(&table, 7)), 0);
}

#[test]
fn a_damaged_record_is_no_such_id() {
    type Damage = fn(&mut Record);
    let sound: [Damage; 9] = [
        |record| record.tentative = 100_000,
        |record| record.rates = [10_000; 3],
        |record| record.rates = [1, 0, 2],
        |record| record.upper[2] = 2_020_000_000_000,
        |record| record.terms[0].lower = 2_020_000_000_000,
        |record| record.moves_upper = 50,
        |record| record.last_second = 86_399,
        |record| record.terms[2].near_top = Some(86_399),
        |record| record.standing = Standing::Live(1_000_000),
    ];
    let damaged: [Damage; 24] = [
        |record| record.statics.lot = 0,
        |record| record.statics.step = 0,
        |record| record.statics.s_max = 10_100,
        |record| record.p1 = 1_030_005,
        |record| record.p2 = 0,
        |record| record.s = 1_000_001,
        |record| record.tentative = 650,
        |record| record.tentative = 100_100,
        |record| record.rates[1] = 10_001,
        |record| record.rates[0] = -1,
        |record| record.upper[0] = 1_112_401,
        |record| record.upper[2] = 2_020_000_000_010,
        |record| record.lower[1] = -10,
        |record| record.terms[0].upper = 5,
        |record| record.terms[2].lower = 2_020_000_000_010,
        |record| record.terms[1].days = 31,
        |record| record.terms[1].rrcl = 1,
        |record| record.terms[1].near_top = Some(86_400),
        |record| record.terms[1].near_bottom = Some(-1),
        |record| record.moves_upper = 51,
        |record| record.moves_lower = -1,
        |record| record.last_second = 86_400,
        |record| record.standing = Standing::Live(1_000_001),
        |record| record.standing = Standing::Admitted(-1),
    ];
    for (expected, damages) in [(0, &sound[..]), (1, &damaged[..])] {
        for (index, damage) in damages.iter().enumerate() {
            let mut table = one_live();
            damage(&mut table[0]);
            assert_eq!(refused(read(&table, 7)), expected, "damage {index}");
        }
    }
    let mut beyond = one_live();
    beyond[0].id = 1_000_000_001;
    assert_eq!(refused(read(&beyond, 1_000_000_001)), 1);
}

#[test]
fn day_values_out_of_range_are_6() {
    // Day 0 is in range, though not after the last day.
    for (number, expected) in [
        (0, 5),
        (1, 0),
        (1_000_000, 0),
        (-1, 6),
        (1_000_001, 6),
        (i64::MIN, 6),
        (i64::MAX, 6),
    ] {
        assert_eq!(day_number(&day(number, &[])), expected, "day {number}");
    }
    both_sides((0, 30), 6, |days_between| {
        day_number(&Day {
            days_between,
            ..day(1, &[])
        })
    });
    both_sides((0, 10), 6, |days_closed| {
        day_number(&Day {
            days_closed,
            ..day(1, &[])
        })
    });
    for place in 0..3 {
        let with = |term| {
            let mut terms = [NO_REPO; 3];
            terms[place] = term;
            day_number(&Day {
                terms,
                ..day(1, &[])
            })
        };
        both_sides((0, 30), 6, |days| with(RepoTerm { days, ..NO_REPO }));
        both_sides((-9_999, 0), 6, |rrcl| with(RepoTerm { rrcl, ..NO_REPO }));
        both_sides((0, 9_999), 6, |rrch| with(RepoTerm { rrch, ..NO_REPO }));
    }
}

#[test]
fn row_values_out_of_range_are_6() {
    let row = [0, 10_000, 0, 1_000_000, 0, 0, 1];
    let with = |place: usize, value| {
        let mut row = row;
        row[place] = value;
        row_number(&row)
    };
    both_sides((0, 30), 6, |value| with(0, value));
    both_sides((-9_999, 9_999), 6, |value| with(2, value));
    both_sides((0, 100_000_000), 6, |value| with(6, value));
    // In range by themselves, though the rounded figures may then be refused.
    for (place, low, high) in [(1, 1, 10_000_000), (4, 0, 10_000_000_000)] {
        for (value, is_refused) in [
            (low, false),
            (high, false),
            (low - 1, true),
            (high + 1, true),
        ] {
            assert_eq!(with(place, value) == 6, is_refused, "{value} at {place}");
        }
    }
    for (value, is_refused) in [(0, true), (1, false), (10_000_000_001, true), (-1, true)] {
        assert_eq!(with(3, value) == 6, is_refused, "close {value}");
    }
    assert_eq!(row_number(&[0, 10_000, 0, 0, 0, 0, 0]), 0);
    assert_eq!(with(5, 10_000_000_001), 6);
    assert_eq!(with(5, -1), 6);
}

#[test]
fn row_lengths_are_multiples_of_7_up_to_112() {
    let rows = traded(1_000_000).repeat(17);
    for length in 0..=rows.len() {
        let expected = if length % 7 == 0 && length <= 112 {
            0
        } else {
            6
        };
        assert_eq!(row_number(&rows[..length]), expected, "{length}");
    }
}

#[test]
fn evaluation_refusals_come_in_order() {
    let wrong_row = [31, 10_000, 0, 1, 0, 0, 0];
    let zero_row = [0, 1, 0, 1, 0, 0, 0];
    let far_row = traded(2_000_010);
    assert_eq!(day_number(&day(0, &wrong_row)), 6);
    assert_eq!(day_number(&day(0, &zero_row)), 5);
    assert_eq!(day_number(&day(0, &[])), 5);
    assert_eq!(day_number(&day(1, &[zero_row, far_row].concat())), 7);
    let crossing = RepoTerm {
        days: 30,
        rrcl: 9_999,
        rrch: 9_999,
    };
    let with = |rows| Day {
        terms: [crossing; 3],
        ..day(1, rows)
    };
    let mut table = fresh_table(1);
    let narrow = Admission {
        statics: z_with(&[(16, 0), (14, 1_000)]),
        ..admission(1_000_000, 600)
    };
    admit(&mut table, &narrow).unwrap();
    assert_eq!(refused(evaluate(&mut table, 7, &with(&far_row))), 8);
    assert_eq!(refused(evaluate(&mut table, 7, &with(&[]))), 9);
    assert_eq!(table[0], reference::security::admitted(&narrow).unwrap());
}

/// A plain rouble row with the sides, without a trade.
fn sides(bid: i64, ask: i64) -> [i64; 7] {
    [0, 10_000, 0, 0, bid, ask, 0]
}

#[test]
fn a_crossed_row_is_16() {
    for (bid, ask, expected) in [
        (999_999, 1_000_000, 0),
        (1_000_000, 1_000_000, 0),
        (1_000_001, 1_000_000, 16),
        (1_000_000, 1, 16),
        (10_000_000_000, 1_000_000, 16),
        (10_000_000_000, 9_999_999_999, 16),
        (2, 1, 16),
        // Either missing, or both.
        (1_000_000, 0, 0),
        (0, 1_000_000, 0),
        (0, 0, 0),
    ] {
        assert_eq!(row_number(&sides(bid, ask)), expected, "{bid} and {ask}");
    }
    // At their most both are in range, and the move is too great.
    assert_eq!(row_number(&sides(10_000_000_000, 10_000_000_000)), 8);
}

#[test]
fn a_crossed_row_is_16_wherever_it_stands() {
    let good = sides(990_000, 1_010_000);
    for count in [1, 2, 3, 16] {
        for place in 0..count {
            let mut rows = vec![good; count];
            assert_eq!(row_number(&rows.concat()), 0);
            rows[place] = sides(1_000_001, 1_000_000);
            assert_eq!(row_number(&rows.concat()), 16, "row {place} of {count}");
        }
    }
}

#[test]
fn rows_may_be_crossed_with_each_other() {
    let rows = [sides(1_009_000, 1_010_000), sides(990_000, 1_000_000)];
    assert_eq!(row_number(&rows.concat()), 0);
    let rows = [sides(1_010_000, 0), sides(0, 1_000_000)];
    assert_eq!(row_number(&rows.concat()), 0);
}

#[test]
fn a_crossed_row_is_judged_as_given() {
    // Half a rouble each: 1,999,999 and 2,000,000 are both 1,000,000 in roubles.
    let half = |bid: i64, ask: i64| [0, 5_000, 0, 0, bid, ask, 0];
    assert_eq!(row_number(&half(2_000_000, 1_999_999)), 16);
    assert_eq!(row_number(&half(1_999_999, 2_000_000)), 0);
    assert_eq!(row_number(&half(2_000_000, 2_000_000)), 0);
    // A bid above the ask of a row in another currency is no crossed row.
    let rows = [half(2_000_000, 2_000_000), sides(1_000_000, 1_000_000)];
    assert_eq!(row_number(&rows.concat()), 0);
}

#[test]
fn a_crossed_row_is_refused_after_6_and_before_5_7_8_and_9() {
    let crossed = sides(1_000_001, 1_000_000);
    // 1: no such id.
    let mut table = one_admitted();
    assert_eq!(refused(evaluate(&mut table, 8, &day(1, &crossed))), 1);
    // 6: in the same row, in another, in the day, in a term, in the length.
    assert_eq!(row_number(&[31, 10_000, 0, 0, 1_000_001, 1_000_000, 0]), 6);
    assert_eq!(row_number(&[0, 10_000, 0, 0, 1_000_001, 1_000_000, 1]), 6);
    assert_eq!(row_number(&sides(10_000_000_001, 1_000_000)), 6);
    assert_eq!(row_number(&sides(1_000_000, -1)), 6);
    let wrong = [31, 10_000, 0, 1, 0, 0, 0];
    assert_eq!(row_number(&[crossed, wrong].concat()), 6);
    assert_eq!(row_number(&[wrong, crossed].concat()), 6);
    assert_eq!(row_number(&[&crossed[..], &[0]].concat()), 6);
    assert_eq!(row_number(&crossed.repeat(17)), 6);
    assert_eq!(day_number(&day(-1, &crossed)), 6);
    let late = Day {
        days_between: 31,
        ..day(1, &crossed)
    };
    assert_eq!(day_number(&late), 6);
    // 5: the day is the last one.
    assert_eq!(day_number(&day(0, &crossed)), 16);
    assert_eq!(day_number(&day(0, &sides(1_000_000, 1_000_000))), 5);
    // 7: a price rounds to 0.
    let zero = [0, 1, 0, 1, 0, 0, 0];
    assert_eq!(row_number(&zero), 7);
    assert_eq!(row_number(&[zero, crossed].concat()), 16);
    assert_eq!(row_number(&[crossed, zero].concat()), 16);
    assert_eq!(row_number(&[0, 1, 0, 1, 2, 1, 0]), 16);
    // 8: the move is too great.
    let far = traded(2_000_010);
    assert_eq!(row_number(&far), 8);
    assert_eq!(
        row_number(&[0, 10_000, 0, 2_000_010, 2_000_011, 2_000_010, 1]),
        16
    );
    // 9: a band is crossed.
    let crossing = RepoTerm {
        days: 30,
        rrcl: 9_999,
        rrch: 9_999,
    };
    let mut table = fresh_table(1);
    let narrow = Admission {
        statics: z_with(&[(16, 0), (14, 1_000)]),
        ..admission(1_000_000, 600)
    };
    admit(&mut table, &narrow).unwrap();
    for (rows, expected) in [(sides(1_000_000, 1_000_000), 9), (crossed, 16)] {
        let day = Day {
            terms: [crossing; 3],
            ..day(1, &rows)
        };
        assert_eq!(refused(evaluate(&mut table, 7, &day)), expected);
    }
    assert_eq!(table[0], reference::security::admitted(&narrow).unwrap());
}

#[test]
fn rounded_row_figures_out_of_range_are_7() {
    let row = |central_rate, close, volume| [0, central_rate, 0, close, 0, 0, volume];
    assert_eq!(row_number(&row(4_999, 1, 0)), 7);
    assert_eq!(row_number(&row(5_000, 1, 0)), 0);
    assert_eq!(row_number(&[0, 4_999, 0, 0, 1, 0, 0]), 7);
    assert_eq!(row_number(&[0, 4_999, 0, 0, 0, 1, 0]), 7);
    assert_eq!(row_number(&row(10_000, 10_000_000_000, 0)), 0);
    assert_eq!(row_number(&row(10_001, 10_000_000_000, 0)), 7);
    // Just over 10^10 it still rounds down to it; at the half it does not.
    assert_eq!(row_number(&row(15_001, 6_666_222_252, 0)), 0);
    assert_eq!(row_number(&row(15_000, 6_666_666_667, 0)), 7);
    assert_eq!(row_number(&row(10_000, 1_000_000, 100_000_000)), 0);
    assert_eq!(row_number(&row(10_001, 1_000_000, 100_000_000)), 7);
    // The evaluation itself is 0 on a grid of 10.
    assert_eq!(row_number(&row(10_000, 4, 1)), 7);
    assert_eq!(row_number(&row(10_000, 5, 1)), 0);
}

#[test]
fn a_move_of_more_than_100_per_cent_is_8() {
    assert_eq!(row_number(&traded(2_000_000)), 0);
    assert_eq!(row_number(&traded(2_000_010)), 8);
    let without_ewma = Admission {
        statics: z_with(&[(common::IS_EWMA, 0)]),
        ..admission(1_000_000, 600)
    };
    let mut table = fresh_table(1);
    admit(&mut table, &without_ewma).unwrap();
    let rows = traded(2_000_010);
    assert_eq!(refused(evaluate(&mut table, 7, &day(1, &rows))), 0);
}

#[test]
fn quote_values_out_of_range_are_6() {
    let number = |quote: &Quote| refused(take_quote(&mut one_live(), 7, quote));
    both_sides((0, 86_399), 6, |second| number(&quote(second, 0, 0)));
    both_sides((0, 2), 6, |term| {
        number(&Quote {
            term,
            ..quote(0, 0, 0)
        })
    });
    both_sides((0, 100_000_000_000), 6, |bid| number(&quote(0, bid, 0)));
    both_sides((0, 100_000_000_000), 6, |ask| number(&quote(0, 0, ask)));
}

#[test]
fn quote_refusals_come_in_order() {
    let mut admitted_only = one_admitted();
    assert_eq!(
        refused(take_quote(&mut admitted_only, 7, &quote(86_400, 0, 0))),
        6
    );
    assert_eq!(
        refused(take_quote(&mut admitted_only, 7, &quote(0, 0, 0))),
        10
    );
    admitted_only[0].statics.monitoring = false;
    assert_eq!(
        refused(take_quote(&mut admitted_only, 7, &quote(0, 0, 0))),
        10
    );
    let mut live = one_live();
    assert_eq!(refused(take_quote(&mut live, 7, &quote(10, 0, 0))), 0);
    assert_eq!(refused(take_quote(&mut live, 7, &quote(10, 0, 0))), 0);
    let other_term = Quote {
        term: 2,
        ..quote(9, 0, 0)
    };
    assert_eq!(refused(take_quote(&mut live, 7, &other_term)), 13);
    live[0].statics.monitoring = false;
    assert_eq!(refused(take_quote(&mut live, 7, &other_term)), 11);
    assert_eq!(live[0].last_second, 10);
}

#[test]
fn move_refusals_come_in_order() {
    let mut admitted_only = one_admitted();
    for side in [-1, 2, i64::MIN, i64::MAX] {
        assert_eq!(refused(move_side(&mut admitted_only, 7, side)), 6);
    }
    assert_eq!(refused(move_side(&mut admitted_only, 7, 0)), 10);
    admitted_only[0].statics.monitoring = false;
    assert_eq!(refused(move_side(&mut admitted_only, 7, 1)), 10);
    let mut live = one_live();
    for side in [0, 1] {
        for _ in 0..50 {
            assert_eq!(refused(move_side(&mut live, 7, side)), 0);
        }
        assert_eq!(refused(move_side(&mut live, 7, side)), 12);
    }
    assert_eq!((live[0].moves_upper, live[0].moves_lower), (50, 50));
    live[0].statics.monitoring = false;
    assert_eq!(refused(move_side(&mut live, 7, 0)), 11);
}

#[test]
fn monitoring_no_is_11_and_still_evaluates() {
    let mut table = fresh_table(1);
    let unmonitored = Admission {
        statics: z_with(&[(MONITORING, 0)]),
        ..admission(1_000_000, 600)
    };
    admit(&mut table, &unmonitored).unwrap();
    evaluate(&mut table, 7, &day(1, &[])).unwrap();
    assert_eq!(table[0].terms[0].lower, 800_000);
    assert_eq!(table[0].terms[0].upper, 1_200_000);
    assert_eq!(refused(move_side(&mut table, 7, 0)), 11);
    assert_eq!(Z[MONITORING], 1);
}
