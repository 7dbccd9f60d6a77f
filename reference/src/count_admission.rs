//! Counts how often the admissions of a script meet each edge of the number that
//! is named where one is refused 4: each number just past each end of its own
//! range, each relation that alone does not hold, and more than one fault. The
//! script generator aims at the same edges.

use std::io::{self, BufRead};

use crate::count::Count;
use crate::desk::SLOTS_MAX;
use crate::field::{self, number_at, out_of_range, unrelated, Relation};
use crate::field::{H, LOT, NUMBERS, P1, P2, PLACE_OF_TENTATIVE, RELATIONS};
use crate::protocol::admission;
use crate::refusal::Refusal;
use crate::replay::calls;
use crate::security::Admission;
use crate::statics::Statics;
use crate::tally::Tally;
use crate::units::TENTATIVE;

/// An admission, and everything that is at fault in it.
pub struct SeenAdmission {
    numbers: [i64; NUMBERS],
    out_of_range: Vec<usize>,
    /// Those that do not hold, where lot and h are in their ranges.
    unrelated: Vec<(usize, Relation)>,
    /// The place that is named.
    named: Option<usize>,
}

impl SeenAdmission {
    pub fn of(given: &Admission) -> SeenAdmission {
        let numbers = field::numbers(given);
        let out_of_range: Vec<usize> = out_of_range(&numbers).collect();
        let is_related = out_of_range.contains(&LOT) || out_of_range.contains(&H);
        let unrelated = if is_related {
            Vec::new()
        } else {
            unrelated(&numbers).collect()
        };
        SeenAdmission {
            numbers,
            out_of_range,
            unrelated,
            named: field::at_fault(given),
        }
    }

    fn number(&self, place: usize) -> i64 {
        self.numbers[place - 1]
    }

    /// That number alone is out of its range.
    fn is_out(&self, place: usize, value: i64) -> bool {
        self.out_of_range == [place] && self.number(place) == value
    }

    /// Each is in its range, and these relations do not hold.
    fn is_unrelated(&self, relations: &[(usize, Relation)]) -> bool {
        self.out_of_range.is_empty() && self.unrelated == relations
    }

    /// The grid of the lot.
    fn grid(&self) -> i64 {
        let lot = self.number(LOT);
        Statics {
            lot,
            ..Statics::EMPTY
        }
        .grid()
    }

    /// The first relation that does not hold stands before, or behind, the first
    /// number out of its range.
    fn is_unrelated_beside(&self, is_before: bool) -> bool {
        match (self.out_of_range.first(), self.unrelated.first()) {
            (Some(out), Some((place, _))) => out != place && (place < out) == is_before,
            _ => false,
        }
    }

    /// A number that would be in its range if it were cut to 32 bits.
    fn is_wrapping(&self) -> bool {
        let is_cut = |place: &usize| {
            let cut = self.number(*place) & i64::from(u32::MAX);
            number_at(*place).1.contains(&cut)
        };
        self.out_of_range.first().map_or(false, is_cut)
    }
}

/// An edge of a name, and whether an admission stands at it.
pub type NamedEdge = (String, Box<dyn Fn(&SeenAdmission) -> bool>);

/// Every edge of the numbers, in the order in which they are told.
pub fn edges() -> Vec<NamedEdge> {
    let mut edges: Vec<NamedEdge> = Vec::new();
    for place in 1..=NUMBERS {
        let (name, range) = number_at(place);
        let (least, most) = (*range.start(), *range.end());
        for (end, value) in [
            ("one below its least", least - 1),
            ("one above its most", most + 1),
        ] {
            let is_met = move |seen: &SeenAdmission| seen.is_out(place, value);
            edges.push((format!("{name} {end}, field {place}"), Box::new(is_met)));
        }
    }
    for (place, relation) in RELATIONS {
        let is_met = move |seen: &SeenAdmission| seen.is_unrelated(&[(place, relation)]);
        let name = format!("{} {}, alone", number_at(place).0, fault_of(relation));
        edges.push((name, Box::new(is_met)));
    }
    for (name, is_met) in OTHERS {
        edges.push((name.to_string(), Box::new(is_met)));
    }
    edges
}

/// What is at fault where a relation does not hold.
fn fault_of(relation: Relation) -> &'static str {
    match relation {
        Relation::Grid => "off the grid",
        Relation::Multiple => "no multiple of h",
        Relation::Top => "above its top",
        Relation::Order => "below the number before it",
    }
}

type Plain = (&'static str, fn(&SeenAdmission) -> bool);

const OTHERS: [Plain; 13] = [
    ("P1 off a grid of 100", |a| {
        a.is_unrelated(&[(P1, Relation::Grid)]) && a.grid() == 100
    }),
    ("P1 off a grid of 10", |a| {
        a.is_unrelated(&[(P1, Relation::Grid)]) && a.grid() == 10
    }),
    ("P1 and P2 off the grid", |a| {
        a.is_unrelated(&[(P1, Relation::Grid), (P2, Relation::Grid)])
    }),
    ("TENTATIVE at the end of its own range", |a| {
        a.out_of_range.is_empty() && a.number(PLACE_OF_TENTATIVE) == *TENTATIVE.end()
    }),
    ("TENTATIVE no multiple and above its top", |a| {
        let place = PLACE_OF_TENTATIVE;
        a.is_unrelated(&[(place, Relation::Multiple), (place, Relation::Top)])
    }),
    ("two relations at two places", |a| {
        let places = [a.unrelated.first(), a.unrelated.last()];
        let is_two = matches!(places, [Some(first), Some(last)] if first.0 < last.0);
        a.out_of_range.is_empty() && is_two
    }),
    ("two numbers out of their ranges", |a| {
        a.out_of_range.len() == 2
    }),
    ("the first and the last number out of their ranges", |a| {
        a.out_of_range.first() == Some(&1) && a.out_of_range.last() == Some(&NUMBERS)
    }),
    ("a number out of its range behind a relation", |a| {
        a.is_unrelated_beside(true) && a.named != a.unrelated.first().map(|(place, _)| *place)
    }),
    ("a number out of its range before a relation", |a| {
        a.is_unrelated_beside(false)
    }),
    ("a number in its range if cut to 32 bits", |a| {
        a.is_wrapping()
    }),
    ("the least number of 64 bits", |a| {
        a.numbers.contains(&i64::MIN)
    }),
    ("the greatest number of 64 bits", |a| {
        a.numbers.contains(&i64::MAX)
    }),
];

/// Edges of the table.
const OF_AN_ADMITTED_ID: &str = "4, not 2, of an id that is admitted";
const WITH_A_FULL_TABLE: &str = "4, not 3, with a full table";

/// Counts the edges that a script meets.
pub fn count_admission(input: impl BufRead) -> io::Result<Count> {
    let edges = edges();
    let of_table = [OF_AN_ADMITTED_ID, WITH_A_FULL_TABLE];
    let names = edges.iter().map(|(name, _)| name.clone());
    let mut tally = Tally::new(names.chain(of_table.map(str::to_string)));
    let mut admitted = 0;
    calls(input, |call| {
        let given = match (call.verb, admission(&call.numbers())) {
            (b"admit", Some(given)) => given,
            _ => return,
        };
        admitted += usize::from(call.answer.number() == 0);
        if call.answer.number() != Refusal::AdmissionOutOfRange.number() {
            return;
        }
        let seen = SeenAdmission::of(&given);
        for (name, is_met) in &edges {
            if is_met(&seen) {
                tally.meet(name);
            }
        }
        if call.before.is_some() {
            tally.meet(OF_AN_ADMITTED_ID);
        }
        if admitted == SLOTS_MAX {
            tally.meet(WITH_A_FULL_TABLE);
        }
    })?;
    Ok(tally.count())
}
