//! Many numbers over one divisor: the division is made once, and each quotient is then a product that is checked.

/// A divisor above 0, with how often it goes into 2^64.
#[derive(Clone, Copy)]
pub struct Divisor {
    by: u64,
    reciprocal: u64,
}

impl Divisor {
    #[inline(always)]
    pub fn new(by: u64) -> Divisor {
        Divisor {
            by,
            reciprocal: u64::MAX / by,
        }
    }

    /// n/by, down. The reciprocal is at most 2^64/by and at least 1 less, so that the guess is at most n/by, and falls
    /// short of it by less than n/2^64 and what is cut off: together by less than 2. So it is the quotient or one less,
    /// and the rest tells which.
    #[inline(always)]
    pub fn down(self, n: u64) -> u64 {
        let guess = high_half(n, self.reciprocal);
        let rest = n - guess * self.by;
        guess + u64::from(rest >= self.by)
    }

    /// n/by, up; n + by fits 64 bits.
    #[inline(always)]
    pub fn up(self, n: u64) -> u64 {
        self.down(n + (self.by - 1))
    }

    /// n/by to the nearest, a tie up; n + by fits 64 bits.
    #[inline(always)]
    pub fn half_up(self, n: u64) -> u64 {
        self.down(n + self.by / 2)
    }
}

/// The high 64 bits of a product.
#[inline(always)]
pub fn high_half(x: u64, y: u64) -> u64 {
    ((u128::from(x) * u128::from(y)) >> 64) as u64
}

/// A step h of 1 to 1,000 basis points, for rates up to 2^21: 2^32/h, up, which is c below. With c·h = 2^32 + e, e < h,
/// and n = k·h + r, r < h, the product c·n is k·2^32 + k·e + c·r. Since k·e is at most n, which is below c, that is
/// below c where r is 0, at least c where it is not, and below 2^32 always: (k + 1)·e is at most n + h, below c too. So
/// the high half is k, and the low half tells whether r is 0.
#[derive(Clone, Copy)]
pub struct Step {
    h: u64,
    c: u64,
}

impl Step {
    #[inline(always)]
    pub fn new(h: u64) -> Step {
        let c = u64::from(u32::MAX / h as u32) + 1;
        Step { h, c }
    }

    /// Of a number above 2^21 the answer is of no account.
    #[inline(always)]
    pub fn divides(self, n: u64) -> bool {
        n.wrapping_mul(self.c) & u64::from(u32::MAX) < self.c
    }

    /// The least multiple of h at or above n.
    #[inline(always)]
    pub fn multiple_from(self, n: u64) -> u64 {
        (((n + self.h - 1) * self.c) >> 32) * self.h
    }
}
