//! The paper's ways of rounding (document 01, "Places of rounding"; W-209 says
//! which way each goes).

/// A 64-bit number in the width of the arithmetic.
pub fn wide(x: i64) -> i128 {
    i128::from(x)
}

/// A result of the arithmetic that the ranges keep within 64 bits.
pub fn narrow(x: i128) -> i64 {
    i64::try_from(x).expect("the paper's ranges keep every figure within 64 bits")
}

/// The greatest whole number not above a quotient, its denominator above 0. It
/// divides once: 128-bit divisions are most of an evaluation's time, and the
/// benchmark shall not find the reference slower than it need be.
fn floor(numerator: i128, denominator: i128) -> i128 {
    if numerator < 0 {
        // A division goes towards 0, which is up here.
        (numerator - (denominator - 1)) / denominator
    } else {
        numerator / denominator
    }
}

/// Which way a quotient goes to a whole number.
#[derive(Clone, Copy, Debug, PartialEq, Eq)]
pub enum Way {
    /// The greatest whole number not above it.
    Down,
    /// The nearest whole number, ties up, also below 0.
    HalfUp,
    /// The least whole number not below it.
    Up,
}

/// An exact quotient, its denominator above 0.
#[derive(Clone, Copy, Debug)]
pub struct Quotient {
    pub numerator: i128,
    pub denominator: i128,
}

impl Quotient {
    /// The whole number that the quotient goes to.
    pub fn rounded(self, way: Way) -> i128 {
        let Quotient {
            numerator,
            denominator,
        } = self;
        match way {
            Way::Down => floor(numerator, denominator),
            Way::HalfUp => floor(2 * numerator + denominator, 2 * denominator),
            Way::Up => floor(numerator + denominator - 1, denominator),
        }
    }

    /// The multiple of the step that the quotient goes to.
    pub fn rounded_to(self, way: Way, step: i64) -> i64 {
        narrow(self.in_steps(step).rounded(way) * wide(step))
    }

    pub fn up(self) -> i128 {
        self.rounded(Way::Up)
    }

    pub fn up_to(self, step: i64) -> i64 {
        self.rounded_to(Way::Up, step)
    }

    pub fn half_up(self) -> i128 {
        self.rounded(Way::HalfUp)
    }

    pub fn half_up_to(self, grid: i64) -> i64 {
        self.rounded_to(Way::HalfUp, grid)
    }

    /// The quotient in steps, exactly.
    pub fn in_steps(self, step: i64) -> Quotient {
        Quotient {
            numerator: self.numerator,
            denominator: self.denominator * wide(step),
        }
    }

    /// The product of two quotients, exactly.
    pub fn times(self, other: Quotient) -> Quotient {
        Quotient {
            numerator: self.numerator * other.numerator,
            denominator: self.denominator * other.denominator,
        }
    }

    /// The lesser of two quotients, compared exactly.
    pub fn lesser(self, other: Quotient) -> Quotient {
        if other.is_below(self) {
            other
        } else {
            self
        }
    }

    /// The greater of two quotients, compared exactly.
    pub fn greater(self, other: Quotient) -> Quotient {
        if self.is_below(other) {
            other
        } else {
            self
        }
    }

    fn is_below(self, other: Quotient) -> bool {
        self.numerator * other.denominator < other.numerator * self.denominator
    }
}

/// The least whole number from `low` to `high` that holds, where `high` holds
/// and every number above one that holds does too.
pub fn least(low: i128, high: i128, holds: impl Fn(i128) -> bool) -> i128 {
    let (mut low, mut high) = (low, high);
    while low < high {
        let middle = low + (high - low) / 2;
        if holds(middle) {
            high = middle;
        } else {
            low = middle + 1;
        }
    }
    high
}

#[cfg(test)]
mod tests {
    use super::*;

    fn quotient(numerator: i128, denominator: i128) -> Quotient {
        Quotient {
            numerator,
            denominator,
        }
    }

    #[test]
    fn up_adds_nothing_to_a_whole_number() {
        assert_eq!(quotient(0, 7).up(), 0);
        assert_eq!(quotient(1, 7).up(), 1);
        assert_eq!(quotient(7, 7).up(), 1);
        assert_eq!(quotient(8, 7).up(), 2);
    }

    #[test]
    fn ties_go_up() {
        assert_eq!(quotient(49, 100).half_up(), 0);
        assert_eq!(quotient(50, 100).half_up(), 1);
        assert_eq!(quotient(149, 100).half_up(), 1);
        assert_eq!(quotient(150, 100).half_up(), 2);
        assert_eq!(quotient(1_003_125, 1).half_up_to(10), 1_003_130);
        assert_eq!(quotient(1_003_124, 1).half_up_to(10), 1_003_120);
        assert_eq!(quotient(1_003_150, 1).half_up_to(100), 1_003_200);
        assert_eq!(quotient(1_003_149, 1).half_up_to(100), 1_003_100);
    }

    #[test]
    fn ties_go_up_below_0_too() {
        // -1/2 lies between -1 and 0, and 0 is up; -3/2 between -2 and -1.
        assert_eq!(quotient(-1, 2).half_up(), 0);
        assert_eq!(quotient(-3, 2).half_up(), -1);
        assert_eq!(quotient(-51, 100).half_up(), -1);
        assert_eq!(quotient(-49, 100).half_up(), 0);
        assert_eq!(quotient(-150, 100).half_up(), -1);
        assert_eq!(quotient(-151, 100).half_up(), -2);
        assert_eq!(quotient(-8, 7).up(), -1);
        assert_eq!(quotient(-7, 7).up(), -1);
    }

    #[test]
    fn up_to_a_step_adds_nothing_to_a_multiple() {
        assert_eq!(quotient(0, 1).up_to(25), 0);
        assert_eq!(quotient(100, 4).up_to(25), 25);
        assert_eq!(quotient(101, 4).up_to(25), 50);
    }

    #[test]
    fn down_and_up_meet_on_whole_numbers_alone() {
        for (numerator, down, up) in [
            (-8, -2, -1),
            (-7, -1, -1),
            (-1, -1, 0),
            (0, 0, 0),
            (1, 0, 1),
            (7, 1, 1),
        ] {
            assert_eq!(quotient(numerator, 7).rounded(Way::Down), down);
            assert_eq!(quotient(numerator, 7).rounded(Way::Up), up);
        }
        assert_eq!(quotient(1_072_056, 1).rounded_to(Way::Down, 10), 1_072_050);
        assert_eq!(quotient(988_404, 1).rounded_to(Way::Up, 10), 988_410);
        assert_eq!(quotient(988_400, 1).rounded_to(Way::Up, 10), 988_400);
    }

    #[test]
    fn lesser_and_greater_are_exact() {
        let third = quotient(1, 3);
        let near = quotient(333_333_333, 1_000_000_000);
        assert_eq!(third.lesser(near).denominator, 1_000_000_000);
        assert_eq!(third.greater(near).denominator, 3);
    }

    #[test]
    fn least_finds_the_first_that_holds() {
        assert_eq!(least(0, 10, |x| x * x >= 17), 5);
        assert_eq!(least(0, 10, |x| x * x >= 16), 4);
        assert_eq!(least(0, 10, |_| true), 0);
        assert_eq!(least(3, 3, |_| true), 3);
    }
}
