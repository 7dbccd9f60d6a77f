//! Floats of every class, and days beside outside prices (W-211).

use crate::exact::{least, wide};
use crate::outside::{Float, FRACTION_BITS, NOT_FINITE, ONE};
use crate::random::Random;
use crate::statics::{Statics, STATICS};
use crate::units::{ONE_IN_TEN_THOUSANDTHS, PRICE};

use super::{day, edges, share};

/// The greatest fraction.
const FRACTION_MAX: i64 = (1 << FRACTION_BITS) - 1;
/// The bit of a fraction that tells a quiet one among what is no number.
const QUIET: i64 = 1 << (FRACTION_BITS - 1);
/// The bits of infinity.
const INFINITY: i64 = NOT_FINITE << FRACTION_BITS;
/// Ties of the rounding: odd 32nds of a rouble, 312.5 units each.
const TIES_IN_ROUBLE: i64 = 32;
/// A tie has so many halves of a unit for each 32nd.
const TIE_HALVES: i64 = 625;

/// The least float of so many halves of a unit or more: floats above zero stand
/// in the order of their bits.
fn first_of_halves(halves: i64) -> i64 {
    let holds = |bits: i128| {
        let float = Float::from_bits(bits as i64);
        match float.value() {
            Some(value) => 2 * value.numerator >= wide(halves) * value.denominator,
            // Too great for a price, or too small.
            None => float.exponent > ONE,
        }
    };
    least(0, wide(INFINITY), holds) as i64
}

/// A float of a price: its least one, its greatest, or one between.
pub fn float_of(random: &mut Random, price: i64) -> i64 {
    let first = first_of_halves(2 * price - 1);
    let last = first_of_halves(2 * price + 1) - 1;
    let between = random.between(first, last);
    random.pick(&[first, last, between, first_of_halves(2 * price)])
}

/// The float of a power of two and a fraction.
pub fn of_power(power: i64, fraction: i64) -> i64 {
    let float = Float {
        is_negative: false,
        exponent: ONE + power,
        fraction,
    };
    float.bits()
}

/// A price in the range of prices whose power of two is given.
pub fn priced_at_power(random: &mut Random, power: i64) -> i64 {
    let least = first_of_halves(1).max(of_power(power, 0));
    let most = first_of_halves(2 * *PRICE.end() + 1) - 1;
    let last = of_power(power, FRACTION_MAX).min(most);
    let between = random.between(least, last);
    random.pick(&[least, last, between])
}

/// A float of a price of any size.
pub fn any_priced(random: &mut Random) -> i64 {
    let price = random.any_size(*PRICE.end()).max(*PRICE.start());
    float_of(random, price)
}

/// A tie above an even unit, or above an odd one: of 32nds of which the units
/// below are 312 and 937, and so on by four.
fn tie(random: &mut Random, is_odd: bool) -> i64 {
    let most = *PRICE.end() / ONE_IN_TEN_THOUSANDTHS as i64 * TIES_IN_ROUBLE / 4;
    let sizes = [random.between(0, 99), random.between(0, most - 1)];
    let four = random.pick(&sizes);
    let odd = 4 * four + if is_odd { 3 } else { 1 };
    first_of_halves(TIE_HALVES * odd)
}

/// A float of each class, beside every edge of its price.
pub fn classes(random: &mut Random) -> Vec<i64> {
    let fraction = random.between(2, QUIET - 1);
    let most = first_of_halves(2 * *PRICE.end());
    let too_great = first_of_halves(2 * *PRICE.end() + 1);
    let too_small = first_of_halves(1) - 1;
    let (even, odd) = (tie(random, false), tie(random, true));
    let priced = any_priced(random);
    let great_fraction = random.between(QUIET + 1, FRACTION_MAX - 1);
    let mut classes = vec![0, i64::MIN, 1, FRACTION_MAX, fraction, fraction | i64::MIN];
    classes.extend([
        1 << FRACTION_BITS,
        priced | i64::MIN,
        INFINITY - 1,
        i64::MIN | (INFINITY - 1),
    ]);
    classes.extend([INFINITY, INFINITY | i64::MIN]);
    for fraction in [1, QUIET, FRACTION_MAX, fraction, great_fraction] {
        classes.extend([INFINITY | fraction, i64::MIN | INFINITY | fraction]);
    }
    classes.extend([too_small - 1, too_small, too_small + 1, too_small + 2]);
    classes.extend([most - 1, most, most + 1, too_great - 1, too_great]);
    for tie in [even, odd] {
        classes.extend([tie - 1, tie, tie + 1]);
    }
    let whole = ONE_IN_TEN_THOUSANDTHS as i64 * random.between(1, 999_999);
    let exact = first_of_halves(2 * whole);
    classes.extend([exact - 1, exact, exact + 1, priced]);
    classes
}

/// Any 64 bits, a float of any class, or one of a price near a security's.
pub fn any(random: &mut Random, price: i64) -> i64 {
    match random.below(10) {
        0 => random.between(i64::MIN, i64::MAX),
        1 => {
            let classes = classes(random);
            random.pick(&classes)
        }
        2 => any_priced(random),
        _ => {
            let far = price / 40 + 2;
            let near = price + random.pick(&[0, 1, -1, far, -far]) + random.between(-far, far) / 2;
            float_of(random, near.clamp(*PRICE.start(), *PRICE.end()))
        }
    }
}

/// The numbers of an admission made for outside prices, its statics Z but for
/// these.
pub fn admission(id: i64, price: i64, statics: Statics) -> Vec<i64> {
    share::numbers(&[id, 0, price, price, 20_000, 600], &statics)
}

/// An admission with UseEXTERNAL just past an end of its range.
pub fn refused(admission: &[i64], past: i64) -> Vec<i64> {
    let mut refused = admission.to_vec();
    refused[edges::ADMISSION.len() + STATICS - 1] = past;
    refused
}

/// How an outside price stands to the book's.
#[derive(Clone, Copy, Debug, PartialEq, Eq)]
pub enum Beside {
    BothMissing,
    BookMissing,
    OutsideMissing,
    By(i64),
}

/// Every way in which they stand: both missing, one alone, far below, one below,
/// equal, one above, far above.
pub const BESIDES: [Beside; 8] = [
    Beside::BothMissing,
    Beside::BookMissing,
    Beside::OutsideMissing,
    Beside::By(-FAR),
    Beside::By(-1),
    Beside::By(0),
    Beside::By(1),
    Beside::By(FAR),
];
/// Far apart, in units.
const FAR: i64 = 3_000;

impl Beside {
    /// The book's price and the outside one, 0 for none, near a price.
    pub fn prices(self, price: i64) -> (i64, i64) {
        match self {
            Beside::BothMissing => (0, 0),
            Beside::BookMissing => (0, price),
            Beside::OutsideMissing => (price, 0),
            Beside::By(units) => (price, price + units),
        }
    }
}

/// A day of one rouble row with the sides, that trades at a close or, where it
/// is 0, does not.
pub fn quoted_day(id: i64, number: i64, close: i64, bid: i64, ask: i64) -> Vec<i64> {
    let volume = i64::from(close != 0);
    let row = [0, ONE_IN_TEN_THOUSANDTHS as i64, 0, close, bid, ask, volume];
    [day::bare(id, number), row.to_vec()].concat()
}
