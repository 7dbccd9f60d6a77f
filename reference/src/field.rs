//! Which number of an admission is at fault where it is refused 4: the first in
//! the order of the places that is out of its own range, or, where each is in its
//! own, the first that does not stand to the others as it must.

use crate::message::Kind;
use crate::security::Admission;
use crate::statics::{Statics, STATICS};
use crate::units::{Range, DAY_NUMBER, ID, PRICE, TENTATIVE, VOLATILITY};

/// Numbers before the statics.
pub const FIRST: usize = 6;
/// Numbers of an admission.
pub const NUMBERS: usize = FIRST + STATICS;

/// The numbers before the statics, in their order: names and own ranges.
static BEFORE_STATICS: [(&str, Range); FIRST] = [
    ("ID", ID),
    ("DAY", DAY_NUMBER),
    ("P1", PRICE),
    ("P2", PRICE),
    ("S", VOLATILITY),
    ("TENTATIVE", TENTATIVE),
];

/// Places in the line, counted from 1.
pub const P1: usize = 3;
pub const P2: usize = 4;
pub const PLACE_OF_TENTATIVE: usize = 6;
pub const LOT: usize = 7;
pub const H: usize = 8;
pub const RH1: usize = 13;
pub const RH2: usize = 14;
pub const RH3: usize = 15;
pub const MIN1: usize = 17;
pub const MIN2: usize = 18;
pub const MIN3: usize = 19;
pub const SMAX: usize = 20;

/// The name and the own range of the number at a place.
pub fn number_at(place: usize) -> (&'static str, &'static Range) {
    match place.checked_sub(FIRST + 1) {
        None => {
            let (name, range) = &BEFORE_STATICS[place - 1];
            (name, range)
        }
        Some(index) => {
            // A message of statics has an id and then each of them.
            let field = &Kind::Statics.fields()[1 + index];
            (field.name, &field.range)
        }
    }
}

/// How a number has to stand to others.
#[derive(Clone, Copy, Debug, PartialEq, Eq)]
pub enum Relation {
    /// On the grid of the lot.
    Grid,
    /// A multiple of h.
    Multiple,
    /// At most the least multiple of h at or above 100,000.
    Top,
    /// At least the number before it.
    Order,
}

/// Every relation, in the order of the places.
pub const RELATIONS: [(usize, Relation); 13] = [
    (P1, Relation::Grid),
    (P2, Relation::Grid),
    (PLACE_OF_TENTATIVE, Relation::Multiple),
    (PLACE_OF_TENTATIVE, Relation::Top),
    (RH2, Relation::Order),
    (RH3, Relation::Order),
    (MIN1, Relation::Multiple),
    (MIN2, Relation::Multiple),
    (MIN2, Relation::Order),
    (MIN3, Relation::Multiple),
    (MIN3, Relation::Order),
    (SMAX, Relation::Multiple),
    (SMAX, Relation::Order),
];

/// The numbers of an admission, in their order.
pub fn numbers(given: &Admission) -> [i64; NUMBERS] {
    let first = [
        given.id,
        given.day,
        given.p1,
        given.p2,
        given.s,
        given.tentative,
    ];
    let mut numbers = [0; NUMBERS];
    numbers[..FIRST].copy_from_slice(&first);
    numbers[FIRST..].copy_from_slice(&given.statics);
    numbers
}

/// The places of the numbers that are out of their own ranges.
pub fn out_of_range(numbers: &[i64; NUMBERS]) -> impl Iterator<Item = usize> + '_ {
    (1..=NUMBERS).filter(|place| !number_at(*place).1.contains(&numbers[place - 1]))
}

/// The relations that do not hold. Lot and h have to be in their ranges.
pub fn unrelated(numbers: &[i64; NUMBERS]) -> impl Iterator<Item = (usize, Relation)> + '_ {
    let statics = Statics {
        lot: numbers[LOT - 1],
        step: numbers[H - 1],
        ..Statics::EMPTY
    };
    RELATIONS.into_iter().filter(move |(place, relation)| {
        let number = numbers[place - 1];
        let holds = match relation {
            Relation::Grid => statics.is_on_grid(number),
            Relation::Multiple => statics.is_multiple_of_step(number),
            Relation::Top => number <= statics.tentative_max(),
            Relation::Order => number >= numbers[place - 2],
        };
        !holds
    })
}

/// The place of the first number at fault, counted from 1; none where the
/// admission is in range.
pub fn at_fault(given: &Admission) -> Option<usize> {
    let numbers = numbers(given);
    let first = out_of_range(&numbers).next();
    first.or_else(|| unrelated(&numbers).next().map(|(place, _)| place))
}
