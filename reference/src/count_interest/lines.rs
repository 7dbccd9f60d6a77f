//! The edges of an interest line's numbers: its ranges, lengths and order.

use crate::interest::{MATURITIES_MAX, MATURITY, MATURITY_RANGES, VALUES, VALUE_RANGES};
use crate::refusal::Refusal;
use crate::tally::Edge;
use crate::units::Range;

/// An interest line, accepted or not.
pub struct SeenLine<'s> {
    pub values: &'s [i64; VALUES],
    pub maturities: &'s [i64],
    pub number: i64,
}

impl SeenLine<'_> {
    fn is_misordered_pair(&self) -> bool {
        self.values[1] >= self.values[2]
    }

    /// The steps from maturity to maturity.
    fn steps(&self) -> Vec<i128> {
        let days: Vec<i128> = self
            .maturities
            .chunks_exact(MATURITY)
            .map(|maturity| i128::from(maturity[0]))
            .collect();
        days.windows(2).map(|pair| pair[1] - pair[0]).collect()
    }

    fn is_misordered(&self) -> bool {
        self.is_misordered_pair() || self.steps().iter().any(|step| *step <= 0)
    }

    fn is_unordered(&self) -> bool {
        self.number == Refusal::TermsNotAscending.number()
    }

    fn is_out_of_range(&self) -> bool {
        self.number == Refusal::ValueOutOfRange.number()
    }

    /// Each number with its name and range.
    fn ranged(&self) -> Vec<(i64, &'static str, Range)> {
        let named = |place: usize| match place.checked_sub(VALUES) {
            None => (VALUE_NAMES[place], VALUE_RANGES[place].clone()),
            Some(place) => {
                let place = place % MATURITY;
                (MATURITY_NAMES[place], MATURITY_RANGES[place].clone())
            }
        };
        let numbers = self.values.iter().chain(self.maturities).enumerate();
        let ranged = numbers.map(|(place, number)| {
            let (name, range) = named(place);
            (*number, name, range)
        });
        ranged.collect()
    }

    /// The ends of ranges at which a number stands without being refused, and
    /// beyond which one alone is refused.
    pub fn range_edges(&self) -> Vec<String> {
        let ranged = self.ranged();
        let is_inside = |(number, _, range): &(i64, &str, Range)| range.contains(number);
        let outside = ranged.iter().filter(|number| !is_inside(number)).count();
        let is_told = |number: &(i64, &str, Range)| match is_inside(number) {
            true => !self.is_out_of_range(),
            false => self.is_out_of_range() && outside == 1,
        };
        let mut met = Vec::new();
        for (number, name, range) in ranged.into_iter().filter(is_told) {
            let edges = RANGE_EDGES.iter();
            let at = edges.filter(|(_, is_met)| is_met(&(number, range.clone())));
            met.extend(at.map(|(edge, _)| format!("{name} {edge}")));
        }
        met
    }
}

/// The ends of a range, and one past each.
const RANGE_EDGES: [Edge<(i64, Range)>; 4] = [
    ("at its least", |(number, range)| number == range.start()),
    ("at its most", |(number, range)| number == range.end()),
    ("one below", |(number, range)| *number == range.start() - 1),
    ("one above", |(number, range)| *number == range.end() + 1),
];

/// The range edges of every number.
pub fn range_edges() -> impl Iterator<Item = String> {
    let names = VALUE_NAMES.iter().chain(&MATURITY_NAMES);
    names.flat_map(|name| RANGE_EDGES.map(|(edge, _)| format!("{name} {edge}")))
}

/// The names of an interest line's numbers, in the order of the text protocol.
const VALUE_NAMES: [&str; VALUES] = [
    "B", "YM", "YN", "A_UP", "A_DOWN", "Q", "H", "WAIT", "LIQ", "MM", "SEC", "XIR", "MONEY",
    "SECRATE",
];
const MATURITY_NAMES: [&str; MATURITY] = [
    "T",
    "R",
    "R1",
    "R2",
    "INDEX",
    "VOLATILITY",
    "TENTATIVE",
    "AGE",
];

pub fn edges<'s>() -> Vec<Edge<SeenLine<'s>>> {
    vec![
        ("accepted interest lines", |l| l.number == 0),
        ("slice of 0", |l| l.maturities.is_empty()),
        ("slice of 8", |l| {
            l.maturities.len() == MATURITY && l.number == 0
        }),
        ("slice of 64", |l| {
            l.maturities.len() == MATURITIES_MAX && l.number == 0
        }),
        ("slice of 72", |l| {
            l.maturities.len() == MATURITIES_MAX + MATURITY
        }),
        ("slice of no multiple of 8", |l| {
            l.maturities.len() % MATURITY != 0
        }),
        ("slice of 63 or 65", |l| {
            [63, 65].contains(&l.maturities.len())
        }),
        ("14: equal maturities", |l| {
            l.is_unordered() && l.steps().contains(&0)
        }),
        ("14: descending maturities", |l| {
            l.is_unordered() && l.steps().iter().any(|step| *step < 0)
        }),
        ("14: last two maturities alone", |l| {
            let steps = l.steps();
            let falls: Vec<bool> = steps.iter().map(|step| *step <= 0).collect();
            l.is_unordered()
                && falls.len() > 1
                && falls.iter().position(|fall| *fall) == Some(falls.len() - 1)
        }),
        ("14: Yn = Ym", |l| {
            l.is_unordered() && l.values[1] == l.values[2]
        }),
        ("14: Yn < Ym", |l| {
            l.is_unordered() && l.values[1] > l.values[2]
        }),
        ("6 before 14", |l| l.is_out_of_range() && l.is_misordered()),
    ]
}
