//! Outside prices (W-211): the units of a float, from its bits, and the bid and
//! ask that a record keeps.

use crate::exact::Quotient;
use crate::units::{ONE_IN_TEN_THOUSANDTHS, OUTSIDE_PRICE, PRICE};

/// Bits of a float's fraction; the exponent stands above it, the sign above that.
pub const FRACTION_BITS: u32 = 52;
/// The exponent of an infinity and of what is no number.
pub const NOT_FINITE: i64 = 2_047;
/// The exponent of one: a float's power of two is its exponent less this.
pub const ONE: i64 = 1_023;
/// The exponent of a float whose steps are one.
const ONE_A_STEP: i64 = ONE + FRACTION_BITS as i64;
/// The least exponent of a normal float; a subnormal one has its steps.
const LEAST_NORMAL: i64 = 1;
/// The least power of two of steps that can make a price: 2^53 steps of 2^-68 of
/// a rouble are less than half a unit, since 10^4 is less than 2^14.
const POWER_MIN: i64 = -67;

/// The parts of a float's 64 bits.
#[derive(Clone, Copy, Debug, PartialEq, Eq)]
pub struct Float {
    pub is_negative: bool,
    /// The exponent field, 0 to 2,047.
    pub exponent: i64,
    /// The fraction field, below 2^52.
    pub fraction: i64,
}

impl Float {
    /// The parts of 64 bits that are given as a signed number.
    pub fn from_bits(bits: i64) -> Float {
        Float {
            is_negative: bits < 0,
            exponent: (bits >> FRACTION_BITS) & NOT_FINITE,
            fraction: bits & ((1 << FRACTION_BITS) - 1),
        }
    }

    /// The 64 bits as a signed number.
    pub fn bits(self) -> i64 {
        let sign = if self.is_negative { i64::MIN } else { 0 };
        sign | self.exponent << FRACTION_BITS | self.fraction
    }

    /// A finite float's size: so many steps of 2 to the power, in roubles.
    fn steps(self) -> (i64, i64) {
        if self.exponent < LEAST_NORMAL {
            return (self.fraction, LEAST_NORMAL - ONE_A_STEP);
        }
        let steps = (1 << FRACTION_BITS) + self.fraction;
        (steps, self.exponent - ONE_A_STEP)
    }

    /// The exact value in units, before it is rounded; none where the float is
    /// not finite or not above zero, or where it is surely too small or too
    /// great for a price.
    pub fn value(self) -> Option<Quotient> {
        let (steps, power) = self.steps();
        let is_finite = self.exponent != NOT_FINITE;
        let is_above_zero = !self.is_negative && steps > 0;
        // With steps of a rouble or more it has 2^52 of them, which are too many.
        let can_be_a_price = (POWER_MIN..0).contains(&power);
        if !is_finite || !is_above_zero || !can_be_a_price {
            return None;
        }
        Some(Quotient {
            numerator: i128::from(steps) * ONE_IN_TEN_THOUSANDTHS,
            denominator: 1 << -power,
        })
    }
}

/// The price of a float, half up to a unit; none where it has none (20).
pub fn price_of(bits: i64) -> Option<i64> {
    let units = Float::from_bits(bits).value()?.half_up();
    let price = i64::try_from(units).ok()?;
    PRICE.contains(&price).then_some(price)
}

/// An outside bid and ask, in units; 0 is none.
#[derive(Clone, Copy, Debug, PartialEq, Eq)]
pub struct Outside {
    pub bid: i64,
    pub ask: i64,
}

impl Outside {
    /// Neither a bid nor an ask.
    pub const NONE: Outside = Outside { bid: 0, ask: 0 };

    /// The pair of two floats sent together; none where one of them has no price.
    pub fn from_bits(bid: i64, ask: i64) -> Option<Outside> {
        Some(Outside {
            bid: price_of(bid)?,
            ask: price_of(ask)?,
        })
    }

    pub fn is_sound(self) -> bool {
        OUTSIDE_PRICE.contains(&self.bid) && OUTSIDE_PRICE.contains(&self.ask)
    }
}

/// The side of a notice.
#[derive(Clone, Copy, Debug, PartialEq, Eq)]
pub enum Quoted {
    Bid,
    Ask,
}

impl Quoted {
    pub const BOTH: [Quoted; 2] = [Quoted::Bid, Quoted::Ask];

    /// Side 0 is a bid, 1 an ask.
    pub fn from_number(number: i64) -> Option<Quoted> {
        match number {
            0 => Some(Quoted::Bid),
            1 => Some(Quoted::Ask),
            _ => None,
        }
    }

    pub fn number(self) -> i64 {
        match self {
            Quoted::Bid => 0,
            Quoted::Ask => 1,
        }
    }

    /// The side's price of a pair.
    pub fn of(self, outside: Outside) -> i64 {
        match self {
            Quoted::Bid => outside.bid,
            Quoted::Ask => outside.ask,
        }
    }

    /// The pair with another price of the side.
    pub fn changed(self, outside: Outside, price: i64) -> Outside {
        match self {
            Quoted::Bid => Outside {
                bid: price,
                ..outside
            },
            Quoted::Ask => Outside {
                ask: price,
                ..outside
            },
        }
    }
}

#[cfg(test)]
mod tests {
    use super::*;

    /// Only the tests have floats: the rule has their bits.
    fn price(float: f64) -> Option<i64> {
        price_of(float.to_bits() as i64)
    }

    #[test]
    fn the_parts_are_the_bits() {
        for bits in [0, 1, -1, i64::MIN, i64::MAX, 4_636_824_850_903_203_840] {
            assert_eq!(Float::from_bits(bits).bits(), bits);
        }
        let one = Float::from_bits(1.0_f64.to_bits() as i64);
        assert_eq!(one.steps(), (1 << 52, -52));
        assert_eq!(Float::from_bits(1).steps(), (1, -1_074));
        assert_eq!(Float::from_bits(1 << 52).steps(), (1 << 52, -1_074));
    }

    #[test]
    fn a_price_is_the_nearest_unit() {
        assert_eq!(price(103.25), Some(1_032_500));
        assert_eq!(price(1.0), Some(10_000));
        // Binary fractions stand beside these decimals, above or below.
        assert_eq!(price(0.0001), Some(1));
        assert_eq!(price(0.0003), Some(3));
        assert_eq!(price(103.2501), Some(1_032_501));
        assert_eq!(price(999_999.999_9), Some(9_999_999_999));
        assert_eq!(price(0.1 + 0.2), Some(3_000));
    }

    #[test]
    fn ties_go_up_and_their_neighbours_to_their_own_unit() {
        // 1/32 rouble is 312.5 units, 3/32 are 937.5.
        for (tie, below) in [
            (0.031_25, 312),
            (0.093_75, 937),
            (100.031_25, 1_000_312),
            (999_999.968_75, 9_999_999_687),
        ] {
            let bits = f64::to_bits(tie) as i64;
            assert_eq!(price_of(bits), Some(below + 1), "{tie}");
            assert_eq!(price_of(bits - 1), Some(below), "below {tie}");
            assert_eq!(price_of(bits + 1), Some(below + 1), "above {tie}");
        }
    }

    #[test]
    fn half_a_unit_is_the_least_price() {
        // No float is 0.00005; the nearest one is above it.
        let near = 0.000_05_f64.to_bits() as i64;
        assert_eq!(price_of(near), Some(1));
        assert_eq!(price_of(near + 1), Some(1));
        assert_eq!(price_of(near - 1), None);
        assert_eq!(price_of(near - 2), None);
    }

    #[test]
    fn a_million_roubles_is_the_greatest_price() {
        let most = 1_000_000.0_f64.to_bits() as i64;
        for beside in -2..=2 {
            assert_eq!(price_of(most + beside), Some(10_000_000_000));
        }
        // Half a unit above it, 2^33 / 20,000 = 429,496.7 steps of 2^-33, is
        // above the most.
        assert_eq!(price_of(most + 429_496), Some(10_000_000_000));
        assert_eq!(price_of(most + 429_497), None);
        assert_eq!(price(1_000_000.000_1), None);
        assert_eq!(price(1_000_001.0), None);
        assert_eq!(price(f64::MAX), None);
    }

    #[test]
    fn what_is_no_price_has_none() {
        for float in [0.0, -0.0, -1.0, -103.25, -f64::MIN_POSITIVE, f64::MIN] {
            assert_eq!(price(float), None, "{float}");
        }
        for float in [f64::INFINITY, f64::NEG_INFINITY, f64::MIN_POSITIVE] {
            assert_eq!(price(float), None, "{float}");
        }
        let infinity = f64::INFINITY.to_bits() as i64;
        let greatest_subnormal = (1 << FRACTION_BITS) - 1;
        for bits in [1, 2, greatest_subnormal] {
            assert_eq!(price_of(bits), None);
            assert_eq!(price_of(bits | i64::MIN), None);
            assert_eq!(price_of(bits | infinity), None);
            assert_eq!(price_of(bits | infinity | i64::MIN), None);
        }
        assert_eq!(price_of(i64::MAX), None);
        assert_eq!(price_of(-1), None);
    }

    #[test]
    fn every_power_of_two_is_itself_or_no_price() {
        for exponent in 0..=NOT_FINITE {
            let float = Float {
                is_negative: false,
                exponent,
                fraction: 0,
            };
            let said = price_of(float.bits());
            let power = exponent - ONE;
            if (-14..0).contains(&power) {
                let exact = Quotient {
                    numerator: 10_000,
                    denominator: 1 << -power,
                };
                assert_eq!(said.map(i128::from), Some(exact.half_up()), "{power}");
            } else if (0..20).contains(&power) {
                assert_eq!(said, Some(10_000 << power), "{power}");
            } else {
                assert_eq!(said, None, "{power}");
            }
        }
    }
}
