//! The classes of floats, at each place where one is sent, and the powers of two
//! with prices among them and without.

use crate::exact::wide;
use crate::outside::{Float, Quoted, FRACTION_BITS, NOT_FINITE, ONE};
use crate::tally::{Edge, Tally};
use crate::units::{Range, PRICE};

use super::SeenCall;

/// The greatest fraction.
const FRACTION_MAX: i64 = (1 << FRACTION_BITS) - 1;
/// The top bit of a fraction.
const TOP: i64 = 1 << (FRACTION_BITS - 1);
/// Halves of a unit: the least price, the greatest, and the first that is none.
const LEAST: i64 = 1;
const MOST: i64 = 2 * *PRICE.end();
const TOO_MANY: i64 = MOST + 1;

/// Powers of two, in roubles, that have prices among them.
pub const POWERS: Range = -15..=19;
/// Some that have none: beside them, and where a shift that wraps would find
/// one.
pub const POWERS_REFUSED: [i64; 14] = [
    -1_022, -512, -256, -128, -64, -32, -16, 20, 32, 64, 128, 256, 512, 1_023,
];

/// Halves of a unit in a float's exact value, as a numerator and a denominator.
fn halves(bits: i64) -> Option<(i128, i128)> {
    let value = Float::from_bits(bits).value()?;
    Some((2 * value.numerator, value.denominator))
}

/// Whether a float is so many halves of a unit or more; of floats above zero.
fn reaches(bits: i64, count: i64) -> bool {
    halves(bits).map_or(false, |(numerator, denominator)| {
        numerator >= wide(count) * denominator
    })
}

/// The greatest float below so many halves of a unit.
fn is_last_below(bits: i64, count: i64) -> bool {
    bits > 0 && !reaches(bits, count) && reaches(bits + 1, count)
}

/// The least float of so many halves of a unit or more.
fn is_first(bits: i64, count: i64) -> bool {
    bits > 0 && is_last_below(bits - 1, count)
}

/// Exactly so many halves of a unit, of which the remainder by four is given.
fn is_whole_halves(bits: i64, holds: impl Fn(i128) -> bool) -> bool {
    halves(bits).map_or(false, |(numerator, denominator)| {
        numerator % denominator == 0 && holds(numerator / denominator)
    })
}

fn is_tie(bits: i64) -> bool {
    is_whole_halves(bits, |halves| halves % 2 == 1)
}

/// Beside a whole unit, and not half a unit away.
fn is_part(bits: i64, is_above: bool) -> bool {
    let is_so = |(numerator, denominator): (i128, i128)| {
        let part = numerator % (2 * denominator);
        part != 0 && part != denominator && (part < denominator) == is_above
    };
    super::is_priced(bits) && halves(bits).map_or(false, is_so)
}

fn is_subnormal(bits: i64, is_negative: bool) -> bool {
    let float = Float::from_bits(bits);
    float.exponent == 0 && float.fraction > 0 && float.is_negative == is_negative
}

/// No number, of that sign and such a fraction.
fn is_no_number(bits: i64, is_negative: bool, holds: fn(i64) -> bool) -> bool {
    let float = Float::from_bits(bits);
    let is_none = float.exponent == NOT_FINITE && float.fraction > 0;
    is_none && float.is_negative == is_negative && holds(float.fraction)
}

fn is_other(fraction: i64) -> bool {
    ![1, TOP, FRACTION_MAX].contains(&fraction)
}

/// Every class of float, those without a price first.
const CLASSES: [Edge<i64>; 37] = [
    ("20: zero", |b| *b == 0),
    ("20: zero below zero", |b| *b == i64::MIN),
    ("20: the least subnormal", |b| *b == 1),
    ("20: the greatest subnormal", |b| *b == FRACTION_MAX),
    ("20: another subnormal", |b| {
        is_subnormal(*b, false) && *b > 1 && *b < FRACTION_MAX
    }),
    ("20: a subnormal below zero", |b| is_subnormal(*b, true)),
    ("20: the least normal", |b| *b == 1 << FRACTION_BITS),
    ("20: a price below zero", |b| {
        *b < 0 && super::is_priced(*b & i64::MAX)
    }),
    ("20: the greatest finite", |b| {
        *b == (NOT_FINITE << FRACTION_BITS) - 1
    }),
    ("20: the greatest finite below zero", |b| {
        *b == i64::MIN | ((NOT_FINITE << FRACTION_BITS) - 1)
    }),
    ("20: infinity", |b| *b == NOT_FINITE << FRACTION_BITS),
    ("20: infinity below zero", |b| {
        *b == i64::MIN | NOT_FINITE << FRACTION_BITS
    }),
    ("20: no number, fraction 1", |b| {
        is_no_number(*b, false, |f| f == 1)
    }),
    ("20: no number, the fraction's top bit alone", |b| {
        is_no_number(*b, false, |f| f == TOP)
    }),
    ("20: no number, every bit of the fraction", |b| {
        is_no_number(*b, false, |f| f == FRACTION_MAX)
    }),
    ("20: no number, another small fraction", |b| {
        is_no_number(*b, false, |f| is_other(f) && f < TOP)
    }),
    ("20: no number, another great fraction", |b| {
        is_no_number(*b, false, |f| is_other(f) && f > TOP)
    }),
    ("20: no number, the sign and fraction 1", |b| {
        is_no_number(*b, true, |f| f == 1)
    }),
    ("20: no number, the sign and the top bit alone", |b| {
        is_no_number(*b, true, |f| f == TOP)
    }),
    ("20: no number, every bit", |b| *b == -1),
    ("20: no number, the sign and another fraction", |b| {
        is_no_number(*b, true, is_other)
    }),
    ("20: two floats below 0.00005", |b| {
        *b > 0 && is_last_below(*b + 1, LEAST)
    }),
    ("20: the float below 0.00005", |b| is_last_below(*b, LEAST)),
    ("the float above 0.00005", |b| is_first(*b, LEAST)),
    ("two floats above 0.00005", |b| {
        *b > 0 && is_first(*b - 1, LEAST)
    }),
    ("the float below 10^6", |b| is_last_below(*b, MOST)),
    ("10^6", |b| is_first(*b, MOST)),
    ("the float above 10^6", |b| *b > 0 && is_first(*b - 1, MOST)),
    ("the float below 10^6 and half a unit", |b| {
        is_last_below(*b, TOO_MANY)
    }),
    ("20: the float above 10^6 and half a unit", |b| {
        is_first(*b, TOO_MANY)
    }),
    ("a tie above an even unit", |b| {
        is_whole_halves(*b, |halves| halves % 4 == 1)
    }),
    ("a tie above an odd unit", |b| {
        is_whole_halves(*b, |halves| halves % 4 == 3)
    }),
    ("the float below a tie", |b| {
        super::is_priced(*b) && is_tie(*b + 1)
    }),
    ("the float above a tie", |b| {
        super::is_priced(*b) && is_tie(*b - 1)
    }),
    ("a whole unit", |b| {
        super::is_priced(*b) && is_whole_halves(*b, |halves| halves % 2 == 0)
    }),
    ("a part above a whole unit", |b| is_part(*b, true)),
    ("a part below a whole unit", |b| is_part(*b, false)),
];

/// A place where a float is sent: a side of a pair, or of a notice.
fn place(call: &SeenCall, side: Quoted) -> &'static str {
    match (call.verb, side) {
        (super::Verb::Outside, Quoted::Bid) => PLACES[0],
        (super::Verb::Outside, Quoted::Ask) => PLACES[1],
        (_, Quoted::Bid) => PLACES[2],
        (_, Quoted::Ask) => PLACES[3],
    }
}

const PLACES: [&str; 4] = [
    "a pair's bid",
    "a pair's ask",
    "a bid alone",
    "an ask alone",
];

fn class_edge(place: &str, class: &str) -> String {
    format!("{place}: {class}")
}

fn power_edge(power: i64) -> String {
    format!("accepted: 2^{power} roubles, or up to twice as much")
}

fn refused_edge(power: i64) -> String {
    format!("20: 2^{power} roubles")
}

/// The edges of the floats alone.
pub fn edges() -> impl Iterator<Item = String> {
    let classes = PLACES.iter().flat_map(|place| {
        CLASSES
            .iter()
            .map(move |(class, _)| class_edge(place, class))
    });
    classes
        .chain(POWERS.map(power_edge))
        .chain(POWERS_REFUSED.map(refused_edge))
}

/// Meets the edges of each float of a call on which its answer hangs.
pub fn look(tally: &mut Tally, call: &SeenCall) {
    for (side, bits) in call.deciding_floats() {
        for (class, is_met) in CLASSES {
            if is_met(&bits) {
                tally.meet(&class_edge(place(call, side), class));
            }
        }
        let float = Float::from_bits(bits);
        let power = float.exponent - ONE;
        if call.is_done() {
            tally.meet(&power_edge(power));
        } else if !float.is_negative && float.fraction == 0 && POWERS_REFUSED.contains(&power) {
            tally.meet(&refused_edge(power));
        }
    }
}
