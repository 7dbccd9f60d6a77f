//! The roundings of a bond at and beside the place where they turn, where the
//! answer shows which way they went.

use crate::bond::{rounded, Bond, Limits, Reach, Worked};
use crate::exact::{wide, Quotient};
use crate::limits::narrower;
use crate::record::Side;
use crate::security::RepoTerm;
use crate::units::ONE_IN_HUNDREDTHS_OF_A_PER_CENT;

use super::SeenBond;

/// A place of rounding.
#[derive(Clone, Copy, Debug, PartialEq, Eq)]
pub enum Place {
    /// net·face/10,000, half up to a unit.
    Clean,
    /// A cash flow as it is carried, half up to a unit.
    Carried,
    /// The grown price, half up to a unit.
    Grown(Reach, Side),
    /// A limit, to a hundredth of a per cent.
    Limit(Reach, Side),
}

/// Where a quotient stands, in parts of its least denominator.
#[derive(Clone, Copy, Debug, PartialEq, Eq)]
pub enum Beside {
    /// At the tie between two whole numbers.
    Tie,
    /// The last part below a tie.
    Below,
    /// At a whole number.
    Whole,
    /// A part above a whole number.
    PartAbove,
    /// A part below a whole number.
    PartBelow,
}

const REACHES: [Reach; 3] = [Reach::Monitored, Reach::Furthest, Reach::OffBook];
const SIDES: [Side; 2] = [Side::Upper, Side::Lower];

impl Place {
    pub fn all() -> Vec<Place> {
        let reached = REACHES
            .iter()
            .flat_map(|reach| SIDES.map(|side| (*reach, side)));
        let grown = reached
            .clone()
            .map(|(reach, side)| Place::Grown(reach, side));
        let limits = reached.map(|(reach, side)| Place::Limit(reach, side));
        [Place::Clean, Place::Carried]
            .into_iter()
            .chain(grown)
            .chain(limits)
            .collect()
    }

    pub fn name(self) -> String {
        match self {
            Place::Clean => "net by face value".to_string(),
            Place::Carried => "a carried flow".to_string(),
            Place::Grown(reach, side) => format!("grown price, {reach:?} {side:?}"),
            Place::Limit(reach, side) => format!("limit, {reach:?} {side:?}"),
        }
    }
}

impl Place {
    /// Where the rounding turns: half up at a tie, and a limit, which goes into
    /// the band, at a whole number.
    pub fn besides(self) -> &'static [Beside] {
        match self {
            Place::Limit(..) => &[Beside::Whole, Beside::PartAbove, Beside::PartBelow],
            _ => &[Beside::Tie, Beside::Below],
        }
    }
}

impl Beside {
    pub fn name(self) -> &'static str {
        match self {
            Beside::Tie => "a tie",
            Beside::Below => "the last part below a tie",
            Beside::Whole => "a whole number",
            Beside::PartAbove => "a part above a whole number",
            Beside::PartBelow => "a part below a whole number",
        }
    }

    /// Whether a quotient stands so.
    pub fn is(self, quotient: Quotient) -> bool {
        let Quotient {
            numerator,
            denominator,
        } = reduced(quotient);
        let past = 2 * numerator.rem_euclid(denominator) - denominator;
        match self {
            Beside::Tie => past == 0,
            Beside::Below => denominator > 1 && (past == -1 || past == -2),
            Beside::Whole => denominator == 1,
            Beside::PartAbove => denominator > 2 && numerator.rem_euclid(denominator) == 1,
            Beside::PartBelow => {
                denominator > 2 && numerator.rem_euclid(denominator) == denominator - 1
            }
        }
    }

    /// Where a figure that is half up would go if the rounding went the other
    /// way.
    fn other_way(self) -> i128 {
        match self {
            Beside::Tie => -1,
            _ => 1,
        }
    }
}

/// A quotient in lowest terms.
pub fn reduced(quotient: Quotient) -> Quotient {
    let divisor = gcd(quotient.numerator.abs(), quotient.denominator);
    Quotient {
        numerator: quotient.numerator / divisor,
        denominator: quotient.denominator / divisor,
    }
}

fn gcd(one: i128, other: i128) -> i128 {
    if other == 0 {
        one.max(1)
    } else {
        gcd(other, one % other)
    }
}

/// Whether an accepted bond has a rounding at the tie, or below it, and its
/// answer tells which way it went.
pub fn is_met(seen: &SeenBond, place: Place, beside: Beside) -> bool {
    seen.accepts(|bond, worked| match place {
        Place::Clean => beside.is(bond.clean()),
        Place::Carried => (0..3).any(|term| is_carried(bond, worked, term, beside)),
        Place::Grown(reach, side) => {
            (0..3).any(|term| is_grown(bond, worked, term, (reach, side), beside))
        }
        Place::Limit(reach, side) => {
            (0..3).any(|term| is_limit(bond, worked, term, (reach, side), beside))
        }
    })
}

fn is_carried(bond: &Bond, worked: &Worked, term: usize, beside: Beside) -> bool {
    let k = bond.terms[term].days;
    let mut paid = bond.paid(k);
    let limits = &worked.limits[term];
    paid.any(|flow| beside.is(bond.carried(flow, k)))
        && with_left(bond, term, worked.rates[0], -beside.other_way()) != *limits
}

fn is_grown(
    bond: &Bond,
    worked: &Worked,
    term: usize,
    (reach, side): (Reach, Side),
    beside: Beside,
) -> bool {
    let s_1 = worked.rates[0];
    let repo_term = &bond.terms[term];
    let grown = bond.grown(s_1, repo_term, reach, side);
    if !beside.is(grown) || !is_shown(bond, worked, term, (reach, side)) {
        return false;
    }
    let limit = |grown: i128| rounded(bond.exact_limit(grown, repo_term.days), side);
    limit(grown.half_up()) != limit(grown.half_up() + beside.other_way())
}

fn is_limit(
    bond: &Bond,
    worked: &Worked,
    term: usize,
    (reach, side): (Reach, Side),
    beside: Beside,
) -> bool {
    let limit = bond.reached(worked.rates[0], &bond.terms[term], reach, side);
    beside.is(limit) && is_shown(bond, worked, term, (reach, side)) && rounded(limit, side) > 0
}

/// Whether the limit of a reach is the one that the answer has: none of the
/// others is as narrow.
fn is_shown(bond: &Bond, worked: &Worked, term: usize, (reach, side): (Reach, Side)) -> bool {
    let others = REACHES.iter().filter(|other| match other {
        Reach::Monitored => bond.statics.monitoring,
        Reach::Furthest => true,
        Reach::OffBook => false,
    });
    let made = |reach: Reach| bond.reached(worked.rates[0], &bond.terms[term], reach, side);
    let limit = made(reach).numerator;
    let is_narrower = |other: i128| match side {
        Side::Upper => limit < other,
        Side::Lower => limit > other,
    };
    let is_made = reach != Reach::Monitored || bond.statics.monitoring;
    let mut others = others.filter(|other| **other != reach);
    is_made && others.all(|other| is_narrower(made(*other).numerator))
}

/// The limits of a term if so much more were left over carry and accrued
/// interest.
fn with_left(bond: &Bond, term: usize, s_1: i64, more: i128) -> Limits {
    let k = bond.terms[term].days;
    made_with(bond, term, s_1, |grown| {
        bond.exact_limit(grown.half_up() + more, k)
    })
}

/// The limits of a term if the grown price were not rounded.
pub fn with_grown_exact(bond: &Bond, term: usize, s_1: i64) -> Limits {
    let paid = bond.carry(bond.terms[term].days) + wide(bond.accrued);
    made_with(bond, term, s_1, |grown| {
        let left = grown.numerator - paid * grown.denominator;
        Quotient {
            numerator: left * ONE_IN_HUNDREDTHS_OF_A_PER_CENT,
            denominator: grown.denominator * wide(bond.face),
        }
    })
}

/// The limits of a term if the carry were rounded once.
pub fn with_carry_at_once(bond: &Bond, term: usize, s_1: i64) -> Limits {
    let k = bond.terms[term].days;
    let carried: Vec<Quotient> = bond.paid(k).map(|flow| bond.carried(flow, k)).collect();
    let sum = Quotient {
        numerator: carried.iter().map(|quotient| quotient.numerator).sum(),
        denominator: carried.first().map_or(1, |quotient| quotient.denominator),
    };
    with_left(bond, term, s_1, bond.carry(k) - sum.half_up())
}

/// The limits of a term, each made from the exact grown price.
fn made_with(bond: &Bond, term: usize, s_1: i64, made: impl Fn(Quotient) -> Quotient) -> Limits {
    let term = &bond.terms[term];
    let side = |side: Side| {
        let reached = |reach: Reach| rounded(made(bond.grown(s_1, term, reach, side)), side);
        let narrower = |one: i64, other: i64| match side {
            Side::Upper => one.min(other),
            Side::Lower => one.max(other),
        };
        let furthest = reached(Reach::Furthest);
        let on_book = if bond.statics.monitoring {
            narrower(furthest, reached(Reach::Monitored))
        } else {
            furthest
        };
        (on_book, narrower(on_book, reached(Reach::OffBook)))
    };
    let (lower, off_lower) = side(Side::Lower);
    let (upper, off_upper) = side(Side::Upper);
    Limits {
        lower,
        upper,
        off_lower,
        off_upper,
    }
}

/// Whether a term's limits on the book would be crossed if they were half up.
pub fn is_crossed_half_up(bond: &Bond, s_1: i64, term: &RepoTerm) -> bool {
    let limit = |side: Side| {
        let furthest = bond.reached(s_1, term, Reach::Furthest, side);
        let limit = if bond.statics.monitoring {
            narrower(
                furthest,
                bond.reached(s_1, term, Reach::Monitored, side),
                side,
            )
        } else {
            furthest
        };
        limit.half_up().max(0)
    };
    limit(Side::Lower) > limit(Side::Upper)
}
