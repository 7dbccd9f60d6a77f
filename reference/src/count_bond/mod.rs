//! Counts how often a script of the evening meets each edge of W-206. The script
//! generator aims at the same edges, so what it cannot reach is missing here.

mod rounding;

use std::io::{self, BufRead};

use crate::bond::{worked, Bond, Limits, Reach, Worked, FLOW, FLOWS_MAX, TERMS, VALUES};
use crate::bond::{FLOW_RANGES, VALUE_RANGES};
use crate::count::Count;
use crate::desk::{fresh_table, SLOTS_MAX};
use crate::ewma;
use crate::kept::Kept;
use crate::protocol::{bond_numbers, perform};
use crate::record::{is_repo_term, Side};
use crate::refusal::Refusal;
use crate::slices::split_first;
use crate::tally::{Edge, Tally};
use crate::units::{AGE, BOND_MONEY, MILLIONTHS_IN_BP, PRICE, TARGET_MAX};
use crate::words::{hear, number_or_pair, words, Word, EVENING};

/// A bond's line and what is answered.
pub struct SeenBond {
    pub values: [i64; VALUES],
    pub flows: Vec<i64>,
    /// The number of the answer.
    pub number: i64,
    /// The bond, where every value is in range.
    pub bond: Option<Bond>,
    /// Its figures, where it is accepted.
    pub worked: Option<Worked>,
    /// The terms that take a worked pair.
    pub paired: usize,
    /// Whether a pair is not kept.
    pub is_unkept: bool,
}

impl SeenBond {
    /// The line of plain numbers.
    pub fn of(numbers: &[i64]) -> SeenBond {
        let (values, flows) = split_first::<VALUES, _>(numbers).expect("a bond has its values");
        let answer = worked(values, flows);
        SeenBond {
            values: *values,
            flows: flows.to_vec(),
            number: answer.map_or_else(Refusal::number, |_| 0),
            bond: Bond::from_numbers(values, flows),
            worked: answer.ok(),
            paired: 0,
            is_unkept: false,
        }
    }

    fn is_refused(&self, refusal: Refusal) -> bool {
        self.number == refusal.number()
    }

    /// Refused as out of range.
    fn is_6(&self) -> bool {
        self.is_refused(Refusal::ValueOutOfRange)
    }

    /// Holds of an accepted bond and its figures.
    fn accepts(&self, holds: impl Fn(&Bond, &Worked) -> bool) -> bool {
        match (&self.bond, &self.worked) {
            (Some(bond), Some(worked)) => holds(bond, worked),
            _ => false,
        }
    }

    /// Holds of a term of an accepted bond: its place and its limits.
    fn accepts_term(&self, holds: impl Fn(&Bond, &Worked, usize, &Limits) -> bool) -> bool {
        self.accepts(|bond, worked| {
            let mut limits = worked.limits.iter().enumerate();
            limits.any(|(place, limits)| holds(bond, worked, place, limits))
        })
    }

    /// The limits of a bond that the number 9 refuses.
    fn crossed(&self) -> Vec<Limits> {
        let bond = match &self.bond {
            Some(bond) if self.is_refused(Refusal::BandCrossed) => bond,
            _ => return Vec::new(),
        };
        let s_1 = bond.rates()[0];
        let limits = bond.terms.iter().map(|term| bond.limits(s_1, term));
        limits.collect()
    }

    /// The places of the terms that are crossed.
    fn crossed_places(&self) -> Vec<usize> {
        let limits = self.crossed();
        let places = (0..limits.len()).filter(|place| limits[*place].are_crossed());
        places.collect()
    }

    /// Each number with its range.
    fn ranged(&self) -> impl Iterator<Item = bool> + '_ {
        let values = self.values.iter().zip(&VALUE_RANGES);
        let flows = self.flows.iter().zip(FLOW_RANGES.iter().cycle());
        values
            .chain(flows)
            .map(|(number, range)| range.contains(number))
    }

    /// Whether a number stands so at an end of its range: inside it is not
    /// refused as out of range, and past it it is the only one that is.
    fn is_at(&self, number: i64, place: Ranged, end: End) -> bool {
        if number != end.of(place) {
            return false;
        }
        let outside = self.ranged().filter(|inside| !inside).count();
        match end {
            End::Least | End::Most => !self.is_6(),
            End::Below | End::Above => self.is_6() && outside == 1,
        }
    }
}

/// A number of a bond's line: a value, or a number of each flow.
#[derive(Clone, Copy, Debug, PartialEq, Eq)]
pub enum Ranged {
    Value(usize),
    Flow(usize),
}

/// An end of a range, or one past it.
#[derive(Clone, Copy, Debug, PartialEq, Eq)]
pub enum End {
    Least,
    Most,
    Below,
    Above,
}

impl End {
    const ALL: [(&'static str, End); 4] = [
        ("at its least", End::Least),
        ("at its most", End::Most),
        ("one below", End::Below),
        ("one above", End::Above),
    ];

    /// The value of a number at this end.
    pub fn of(self, place: Ranged) -> i64 {
        let range = match place {
            Ranged::Value(place) => &VALUE_RANGES[place],
            Ranged::Flow(place) => &FLOW_RANGES[place],
        };
        match self {
            End::Least => *range.start(),
            End::Most => *range.end(),
            End::Below => range.start() - 1,
            End::Above => range.end() + 1,
        }
    }
}

/// The names of a bond's values, in the order of the text protocol.
const VALUE_NAMES: [&str; VALUES] = [
    "M",
    "NET",
    "FACE",
    "ACCRUED",
    "REPO",
    "S",
    "TENTATIVE",
    "AGE",
    "K0",
    "LOW0",
    "HIGH0",
    "K1",
    "LOW1",
    "HIGH1",
    "K2",
    "LOW2",
    "HIGH2",
    "H",
    "Q",
    "WAIT",
    "RH1",
    "RH2",
    "RH3",
    "LIQ",
    "MIN1",
    "MIN2",
    "MIN3",
    "SMAX",
    "XPR",
    "PCHMAX",
    "PCLMAX",
    "MONITORING",
    "ISEWMA",
];
const FLOW_NAMES: [&str; FLOW] = ["DAY", "AMOUNT"];

/// The ends of the tentative rate that go by the step, so that they are edges of
/// their own.
const TOPS: [(Ranged, End); 2] = [
    (Ranged::Value(6), End::Most),
    (Ranged::Value(6), End::Above),
];

/// What an edge is about, so that the generator can aim at it.
#[derive(Clone, Copy, Debug, PartialEq, Eq)]
pub enum Aim {
    /// A number at an end of its range.
    End(Ranged, End),
    /// A rounding at or beside the place where it turns.
    Rounding(rounding::Place, rounding::Beside),
    /// The n-th of the other edges.
    Other(usize),
}

impl Aim {
    /// Every edge, in the order in which they are told.
    pub fn all() -> Vec<Aim> {
        let values = (0..VALUES).map(Ranged::Value);
        let numbers: Vec<Ranged> = values.chain((0..FLOW).map(Ranged::Flow)).collect();
        let ends = numbers
            .iter()
            .flat_map(|place| End::ALL.map(|(_, end)| (*place, end)))
            .filter(|end| !TOPS.contains(end))
            .map(|(place, end)| Aim::End(place, end));
        let places = rounding::Place::all();
        let roundings = places
            .iter()
            .flat_map(|place| place.besides().iter().map(|beside| (*place, *beside)))
            .map(|(place, beside)| Aim::Rounding(place, beside));
        let others = (0..OTHERS.len()).map(Aim::Other);
        roundings.chain(others).chain(ends).collect()
    }

    pub fn name(self) -> String {
        match self {
            Aim::End(place, end) => {
                let name = match place {
                    Ranged::Value(place) => VALUE_NAMES[place],
                    Ranged::Flow(place) => FLOW_NAMES[place],
                };
                let told = End::ALL.iter().find(|(_, other)| *other == end);
                format!("{name} {}", told.map_or("", |(told, _)| told))
            }
            Aim::Rounding(place, beside) => format!("{}: {}", place.name(), beside.name()),
            Aim::Other(index) => OTHERS[index].0.to_string(),
        }
    }

    pub fn is_met(self, seen: &SeenBond) -> bool {
        match self {
            Aim::End(place, end) => match place {
                Ranged::Value(value) => seen.is_at(seen.values[value], place, end),
                Ranged::Flow(number) => {
                    let mut flows = seen.flows.chunks_exact(FLOW);
                    seen.flows.len() % FLOW == 0
                        && seen.flows.len() <= FLOWS_MAX
                        && flows.any(|flow| seen.is_at(flow[number], place, end))
                }
            },
            Aim::Rounding(place, beside) => rounding::is_met(seen, place, beside),
            Aim::Other(index) => OTHERS[index].1(seen),
        }
    }
}

/// t of the volatility.
fn t(bond: &Bond) -> i64 {
    ewma::target(&bond.statics.model(), bond.before.s, MILLIONTHS_IN_BP)
}

/// How many steps t stands above the old tentative rate.
fn rise(bond: &Bond) -> i64 {
    let statics = &bond.statics;
    (t(bond) - bond.before.tentative) / statics.step
}

/// The greatest tentative rate of a step.
fn top(step: i64) -> i64 {
    (TARGET_MAX + step - 1) / step * step
}

/// Accepted at the greatest tentative rate of that step.
fn is_at_top(seen: &SeenBond, step: i64) -> bool {
    let [tentative, given] = [6, 17].map(|place| seen.values[place]);
    seen.number == 0 && given == step && tentative == top(step)
}

/// Refused a step past the greatest tentative rate of that step.
fn is_past_top(seen: &SeenBond, step: i64) -> bool {
    let [tentative, given] = [6, 17].map(|place| seen.values[place]);
    seen.is_6() && given == step && tentative == top(step) + step
}

/// The limit that a reach gives in a term, rounded.
fn limit(bond: &Bond, worked: &Worked, term: usize, reach: Reach, side: Side) -> i64 {
    let term = &bond.terms[term];
    crate::bond::rounded(bond.reached(worked.rates[0], term, reach, side), side)
}

/// How far the monitored limit is above the furthest one, both rounded.
fn monitored_above(bond: &Bond, worked: &Worked, term: usize, side: Side) -> i64 {
    limit(bond, worked, term, Reach::Monitored, side)
        - limit(bond, worked, term, Reach::Furthest, side)
}

/// Whether a flow stands so many days after a term's k and its amount tells: it
/// would change a limit of that term, were it carried or not.
fn has_telling_flow(seen: &SeenBond, after_k: i64) -> bool {
    seen.accepts_term(|bond, worked, place, limits| {
        let term = &bond.terms[place];
        let at = |day: i64| day == term.days + after_k;
        if !bond.flows.iter().any(|flow| at(flow.day)) {
            return false;
        }
        let mut other = bond.clone();
        for flow in other.flows.iter_mut().filter(|flow| at(flow.day)) {
            flow.day = if after_k == 0 {
                term.days + 1
            } else {
                term.days
            };
        }
        other.limits(worked.rates[0], term) != *limits
    })
}

/// Whether a limit would differ if it were made otherwise from the exact grown
/// price and the exact carry of its term.
fn would_tell(seen: &SeenBond, made: impl Fn(&Bond, usize, i64) -> Limits) -> bool {
    seen.accepts_term(|bond, worked, place, limits| made(bond, place, worked.rates[0]) != *limits)
}

const OTHERS: &[Edge<SeenBond>] = &[
    ("accepted bonds", |b| b.number == 0),
    ("no flow", |b| b.number == 0 && b.flows.is_empty()),
    ("one flow", |b| b.number == 0 && b.flows.len() == FLOW),
    ("four flows", |b| {
        b.number == 0 && b.flows.len() == FLOWS_MAX
    }),
    ("6: one number of a flow", |b| {
        b.is_6() && b.flows.len() == 1
    }),
    ("6: seven numbers of flows", |b| {
        b.is_6() && b.flows.len() == 7
    }),
    ("6: nine numbers of flows", |b| {
        b.is_6() && b.flows.len() == 9
    }),
    ("6: five flows", |b| b.is_6() && b.flows.len() == 10),
    ("6: more than a hundred numbers of flows", |b| {
        b.is_6() && b.flows.len() > 100
    }),
    ("flows of one day", |b| {
        b.accepts(|bond, _| bond.flows.windows(2).any(|two| two[0].day == two[1].day))
    }),
    ("flows in no order", |b| {
        b.accepts(|bond, _| bond.flows.windows(2).any(|two| two[0].day > two[1].day))
    }),
    ("a flow on day k", |b| has_telling_flow(b, 0)),
    ("a flow on day k + 1", |b| has_telling_flow(b, 1)),
    ("two paid flows", |b| {
        b.accepts_term(|bond, _, place, _| bond.paid(bond.terms[place].days).count() == 2)
    }),
    ("17: no face value", |b| b.is_refused(Refusal::NoFaceValue)),
    ("17 before 7", |b| {
        b.is_refused(Refusal::NoFaceValue) && b.values[3] == 0
    }),
    ("6 before 17", |b| b.is_6() && b.values[2] == 0),
    ("face value 1", |b| b.accepts(|bond, _| bond.face == 1)),
    ("face value 1, a limit above 0", |b| {
        b.accepts_term(|bond, _, _, limits| bond.face == 1 && limits.lower > 0)
    }),
    ("face value at its most", |b| {
        b.accepts(|bond, _| bond.face == *BOND_MONEY.end())
    }),
    ("7: P is 0", |b| {
        let is_0 = |bond: &Bond| bond.gross() == 0;
        b.is_refused(Refusal::EvaluationOutOfRange) && b.bond.as_ref().map_or(false, is_0)
    }),
    ("P is 1", |b| b.accepts(|_, worked| worked.p == 1)),
    ("P is the greatest price", |b| {
        b.accepts(|_, worked| worked.p == *PRICE.end())
    }),
    ("7: P is one above the greatest price", |b| {
        let is_past = |bond: &Bond| bond.gross() == PRICE.end() + 1;
        b.is_refused(Refusal::EvaluationOutOfRange) && b.bond.as_ref().map_or(false, is_past)
    }),
    ("7 before 9", |b| {
        let is_crossed = |bond: &Bond| {
            let s_1 = bond.rates()[0];
            let mut terms = bond.terms.iter();
            terms.any(|term| bond.limits(s_1, term).are_crossed())
        };
        b.is_refused(Refusal::EvaluationOutOfRange) && b.bond.as_ref().map_or(false, is_crossed)
    }),
    ("9: the first term alone", |b| b.crossed_places() == [0]),
    ("9: the second term alone", |b| b.crossed_places() == [1]),
    ("9: the third term alone", |b| b.crossed_places() == [2]),
    ("9: every term", |b| b.crossed_places() == [0, 1, 2]),
    ("9: off the book alone", |b| {
        let crossed = b.crossed();
        let is_off = |limits: &Limits| limits.lower <= limits.upper;
        !crossed.is_empty() && crossed.iter().all(is_off)
    }),
    ("9: off the book alone, by one", |b| {
        let crossed = b.crossed();
        let is_off = |limits: &Limits| limits.lower <= limits.upper;
        let by_one = |limits: &Limits| limits.off_lower == limits.off_upper + 1;
        crossed.iter().all(is_off) && crossed.iter().any(by_one)
    }),
    ("9: on the book too, and half up would not cross", |b| {
        let bond = match &b.bond {
            Some(bond) if !b.crossed_places().is_empty() => bond,
            _ => return false,
        };
        let s_1 = bond.rates()[0];
        let terms = bond.terms.iter().zip(b.crossed());
        let mut on_book = terms.filter(|(_, limits)| limits.lower > limits.upper);
        on_book.any(|(term, _)| !rounding::is_crossed_half_up(bond, s_1, term))
    }),
    ("9: crossed by one", |b| {
        let crossed = b.crossed();
        let mut crossed = crossed.iter().filter(|limits| limits.are_crossed());
        crossed.any(|limits| limits.lower == limits.upper + 1)
    }),
    ("lower and upper limit equal, above 0", |b| {
        b.accepts_term(|_, _, _, limits| limits.lower == limits.upper && limits.lower > 0)
    }),
    ("lower limit one below the upper one", |b| {
        b.accepts_term(|_, _, _, limits| limits.lower + 1 == limits.upper)
    }),
    ("off the book equal, on the book not", |b| {
        b.accepts_term(|_, _, _, limits| {
            limits.off_lower == limits.off_upper && limits.lower < limits.upper
        })
    }),
    ("isEWMA no", |b| b.accepts(|bond, _| !bond.statics.is_ewma)),
    ("isEWMA no, and t would change the tentative rate", |b| {
        b.accepts(|bond, _| !bond.statics.is_ewma && rise(bond) > 0)
    }),
    ("t one step above the tentative rate", |b| {
        b.accepts(|bond, _| bond.statics.is_ewma && rise(bond) == 1)
    }),
    ("t at the tentative rate", |b| {
        b.accepts(|bond, _| bond.statics.is_ewma && rise(bond) == 0 && t(bond) > 0)
    }),
    ("t one step below, the wait over", |b| {
        b.accepts(|bond, worked| {
            let is_over = bond.before.age + 1 == bond.statics.wait;
            rise(bond) == -1 && is_over && worked.tentative < bond.before.tentative
        })
    }),
    ("t one step below, a day to wait", |b| {
        b.accepts(|bond, worked| {
            let waits = bond.before.age + 2 == bond.statics.wait;
            rise(bond) == -1 && waits && worked.age == bond.before.age + 1
        })
    }),
    ("falls by one step where t is far below", |b| {
        b.accepts(|bond, worked| rise(bond) < -1 && worked.tentative < bond.before.tentative)
    }),
    ("age stays at its most", |b| {
        b.accepts(|bond, worked| bond.before.age == *AGE.end() && worked.age == *AGE.end())
    }),
    ("q·s an exact multiple of h", |b| {
        b.accepts(|bond, _| {
            let needed = bond.statics.multiplier * bond.before.s;
            bond.statics.is_ewma && needed > 0 && needed == 10_000 * t(bond)
        })
    }),
    ("q·s one part above a multiple of h", |b| {
        b.accepts(|bond, _| {
            let statics = &bond.statics;
            let past = statics.multiplier * bond.before.s - 10_000 * (t(bond) - statics.step);
            statics.is_ewma && past > 0 && past <= statics.multiplier
        })
    }),
    ("t a step above S_max", |b| {
        b.accepts(|bond, _| {
            bond.statics.is_ewma && t(bond) == bond.statics.s_max + bond.statics.step
        })
    }),
    ("a rate at S_max, another below", |b| {
        b.accepts(|bond, worked| {
            let s_max = bond.statics.s_max;
            worked.rates[2] == s_max && worked.rates[0] < s_max && bond.statics.is_ewma
        })
    }),
    ("a rate at its minimum, another above", |b| {
        b.accepts(|bond, worked| {
            let minima = &bond.statics.minima;
            bond.statics.is_ewma && worked.rates[0] == minima[0] && worked.rates[2] > minima[2]
        })
    }),
    (
        "Monitoring no, and the monitored limit would be narrower",
        |b| {
            b.accepts_term(|bond, worked, term, _| {
                !bond.statics.monitoring && monitored_above(bond, worked, term, Side::Upper) < 0
            })
        },
    ),
    ("upper: the monitored is the lesser by one", |b| {
        b.accepts_term(|bond, worked, term, _| {
            bond.statics.monitoring && monitored_above(bond, worked, term, Side::Upper) == -1
        })
    }),
    ("upper: the furthest is the lesser by one", |b| {
        b.accepts_term(|bond, worked, term, _| {
            bond.statics.monitoring && monitored_above(bond, worked, term, Side::Upper) == 1
        })
    }),
    ("lower: the monitored is the greater by one", |b| {
        b.accepts_term(|bond, worked, term, _| {
            bond.statics.monitoring && monitored_above(bond, worked, term, Side::Lower) == 1
        })
    }),
    ("lower: the furthest is the greater by one", |b| {
        b.accepts_term(|bond, worked, term, _| {
            bond.statics.monitoring && monitored_above(bond, worked, term, Side::Lower) == -1
        })
    }),
    ("off the book one below the upper limit", |b| {
        b.accepts_term(|_, _, _, limits| limits.off_upper + 1 == limits.upper)
    }),
    ("off the book one above the lower limit", |b| {
        b.accepts_term(|_, _, _, limits| limits.off_lower == limits.lower + 1)
    }),
    ("the band narrower than 20 per cent", |b| {
        b.accepts_term(|bond, worked, term, limits| {
            limits.lower > limit(bond, worked, term, Reach::OffBook, Side::Lower)
                && limits.upper < limit(bond, worked, term, Reach::OffBook, Side::Upper)
        })
    }),
    ("S_1 at x_pr", |b| {
        b.accepts(|bond, worked| {
            bond.statics.monitoring && worked.rates[0] == 100 * bond.statics.x_pr
        })
    }),
    ("S_1 above x_pr", |b| {
        b.accepts(|bond, worked| {
            bond.statics.monitoring && worked.rates[0] > 100 * bond.statics.x_pr
        })
    }),
    ("a lower limit below 0 before it is 0", |b| {
        b.accepts_term(|bond, worked, place, limits| {
            let term = &bond.terms[place];
            let made = bond.reached(worked.rates[0], term, Reach::Furthest, Side::Lower);
            limits.lower == 0 && limits.upper > 0 && made.numerator < 0
        })
    }),
    ("an upper limit below 0 before it is 0", |b| {
        b.accepts_term(|bond, worked, place, limits| {
            let term = &bond.terms[place];
            let made = bond.reached(worked.rates[0], term, Reach::Furthest, Side::Upper);
            limits.upper == 0 && made.numerator < 0
        })
    }),
    ("a lower limit of 1", |b| {
        b.accepts_term(|_, _, _, limits| limits.lower == 1)
    }),
    ("the grown price not rounded would tell", |b| {
        would_tell(b, |bond, place, s_1| {
            rounding::with_grown_exact(bond, place, s_1)
        })
    }),
    ("the carry not rounded by term would tell", |b| {
        would_tell(b, |bond, place, s_1| {
            rounding::with_carry_at_once(bond, place, s_1)
        })
    }),
    ("RRcL equal to RRcH", |b| {
        b.accepts(|bond, _| {
            bond.terms
                .iter()
                .any(|term| term.rrcl == term.rrch && term.rrcl != 0)
        })
    }),
    ("6: RRcL one above RRcH", |b| {
        let mut terms = b.values[TERMS..TERMS + 9].chunks_exact(3);
        b.is_6() && b.ranged().all(|inside| inside) && terms.any(|term| term[1] == term[2] + 1)
    }),
    ("tentative rate at S_max", |b| {
        b.accepts(|bond, _| {
            let s_max = bond.statics.s_max;
            bond.before.tentative == s_max && s_max > 0 && s_max < 10_000
        })
    }),
    ("tentative rate a step above S_max", |b| {
        b.accepts(|bond, _| bond.before.tentative == bond.statics.s_max + bond.statics.step)
    }),
    ("tentative rate at the top, h 1", |b| is_at_top(b, 1)),
    ("tentative rate at the top, h 7", |b| is_at_top(b, 7)),
    ("tentative rate at the top, h 999", |b| is_at_top(b, 999)),
    ("tentative rate at the top, h 1,000", |b| {
        is_at_top(b, 1_000)
    }),
    ("6: tentative rate a step past the top, h 1", |b| {
        is_past_top(b, 1)
    }),
    ("6: tentative rate a step past the top, h 7", |b| {
        is_past_top(b, 7)
    }),
    ("6: tentative rate a step past the top, h 999", |b| {
        is_past_top(b, 999)
    }),
    ("6: tentative rate a step past the top, h 1,000", |b| {
        is_past_top(b, 1_000)
    }),
    ("rises above S_max, the rates at it", |b| {
        b.accepts(|bond, worked| {
            let s_max = bond.statics.s_max;
            worked.tentative > s_max.max(bond.before.tentative) && worked.rates == [s_max; 3]
        })
    }),
    ("falls by a step and stays above S_max", |b| {
        b.accepts(|bond, worked| {
            bond.before.tentative > worked.tentative && worked.tentative > bond.statics.s_max
        })
    }),
    ("6: tentative rate no multiple of h", |b| {
        let [tentative, step, s_max] = [6, 17, 27].map(|place| b.values[place]);
        let is_alone = b.is_6() && b.ranged().all(|inside| inside);
        is_alone && tentative < s_max && tentative % step == 1
    }),
    ("6: a minimum above S_max", |b| {
        b.is_6() && b.ranged().all(|inside| inside) && b.values[26] > b.values[27]
    }),
    ("6: S_max no multiple of h", |b| {
        b.is_6() && b.ranged().all(|inside| inside) && b.values[27] % b.values[17] != 0
    }),
    ("6: rh_2 one below rh_1", |b| {
        b.is_6() && b.ranged().all(|inside| inside) && b.values[21] + 1 == b.values[20]
    }),
];

/// The edges of a bond that takes worked pairs.
const PAIRED: &[Edge<SeenBond>] = &[
    ("accepted with one pair", |b| b.number == 0 && b.paired == 1),
    ("accepted with more pairs", |b| {
        b.number == 0 && b.paired > 1
    }),
    ("6 with a pair not kept", |b| b.is_6() && b.is_unkept),
    ("6 with a kept band that is none of a day", |b| {
        let mut terms = b.values[TERMS..TERMS + 9].chunks_exact(3);
        let is_bad = |term: &[i64]| !is_repo_term(term[0], term[1], term[2]);
        b.is_6() && b.paired > 0 && !b.is_unkept && terms.any(is_bad)
    }),
];

/// Counts the edges that a script meets.
pub fn count_bond(input: impl BufRead) -> io::Result<Count> {
    let aims = Aim::all();
    let paired = PAIRED.iter().map(|(name, _)| name.to_string());
    let mut tally = Tally::new(aims.iter().map(|aim| aim.name()).chain(paired));
    let (mut table, mut kept) = (fresh_table(SLOTS_MAX), Kept::default());
    let mut heard = Vec::new();
    for line in input.split(b'\n') {
        let line = line?;
        let is_bond = words(&line).next() == Some(b"bond");
        let mut numbers = None;
        hear(
            &line,
            &EVENING,
            &mut heard,
            number_or_pair,
            |verb, words| {
                numbers = bond_numbers(&kept, words).filter(|_| is_bond);
                perform(&mut table, &mut kept, verb, words)
            },
        );
        if let Some(numbers) = numbers {
            let seen = seen_with_pairs(&kept, &numbers, &heard);
            for aim in aims.iter().filter(|aim| aim.is_met(&seen)) {
                tally.meet(&aim.name());
            }
            tally.look(PAIRED, &seen);
        }
    }
    Ok(tally.count())
}

/// The line of a bond's numbers; a bond keeps no band, so what it took still
/// stands.
fn seen_with_pairs(kept: &Kept, numbers: &[i64], heard: &[Word]) -> SeenBond {
    let pairs = || heard.iter().filter_map(|word| word.pair());
    SeenBond {
        paired: pairs().count(),
        is_unkept: pairs().any(|pair| kept.band(pair).is_none()),
        ..SeenBond::of(numbers)
    }
}

pub use rounding::{reduced, Beside, Place};
