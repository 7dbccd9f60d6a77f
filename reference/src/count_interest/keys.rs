//! The edges of a key maturity's figures (14.4).

use crate::ewma;
use crate::interest::{Figures, Key, Sheet};
use crate::tally::Edge;
use crate::units::{AGE, RATE};

/// A key maturity of an accepted sheet.
pub struct SeenKey<'s> {
    pub sheet: &'s Sheet,
    pub key: &'s Key,
    pub figures: &'s Figures,
}

impl SeenKey<'_> {
    /// How far the change stands above the old tentative rate.
    fn past_tentative(&self) -> i64 {
        self.figures.change - self.key.before.tentative
    }

    /// How far the change stands above the old volatility.
    fn past_volatility(&self) -> i64 {
        self.figures.change - self.key.before.s
    }

    /// The volatility had no change passed the tentative rate.
    fn weighed(&self) -> i64 {
        ewma::weighed(
            &self.sheet.model,
            self.key.before.s,
            self.figures.change,
            self.sheet.days_between,
        )
    }

    /// How far t stands above the old tentative rate.
    fn rise(&self) -> i64 {
        ewma::target(&self.sheet.model, self.figures.after.s, 1) - self.key.before.tentative
    }

    fn step(&self) -> i64 {
        self.sheet.model.step
    }

    /// Days that the wait asks for yet after this one.
    fn waiting(&self) -> i64 {
        self.sheet.model.wait - (self.key.before.age + 1)
    }

    fn is_falling(&self) -> bool {
        self.figures.after.tentative < self.key.before.tentative
    }

    fn needed(&self) -> i64 {
        self.figures.after.tentative + self.sheet.liquidity
    }

    /// How far the spread stands above tentative + liquidity.
    fn past_needed(&self) -> i64 {
        self.sheet.spread(self.key) - self.needed()
    }

    fn holidays(&self) -> i64 {
        self.sheet.days_between
    }
}

pub fn edges<'s>() -> Vec<Edge<SeenKey<'s>>> {
    vec![
        ("change = old tentative", |k| k.past_tentative() == 0),
        ("change = old tentative + 1", |k| k.past_tentative() == 1),
        ("change = old volatility", |k| k.past_volatility() == 0),
        ("change = old volatility + 1", |k| k.past_volatility() == 1),
        ("b 1, change > old tentative", |k| {
            k.holidays() == 1 && k.past_tentative() > 0
        }),
        ("b 2, change > old tentative", |k| {
            k.holidays() == 2 && k.past_tentative() > 0
        }),
        ("b 1, change > old volatility", |k| {
            k.holidays() == 1 && k.past_volatility() > 0
        }),
        ("b 2, change > old volatility", |k| {
            k.holidays() == 2 && k.past_volatility() > 0
        }),
        ("replacement greater", |k| k.figures.after.s > k.weighed()),
        ("replacement not greater", |k| {
            k.holidays() < 2 && k.past_tentative() > 0 && k.figures.after.s == k.weighed()
        }),
        ("volatility rounded up", |k| is_rounded_up(k)),
        ("t = old tentative + h", |k| k.rise() == k.step()),
        ("t = old tentative + h - 1", |k| k.rise() == k.step() - 1),
        ("t = old tentative - h, falls", |k| {
            k.rise() == -k.step() && k.is_falling()
        }),
        ("t = old tentative - h + 1, stays after the wait", |k| {
            k.rise() == 1 - k.step() && k.waiting() <= 0 && k.step() > 1
        }),
        ("falls with the wait just met", |k| {
            k.is_falling() && k.waiting() == 0
        }),
        ("waits one short of the wait", |k| {
            k.rise() <= -k.step() && k.waiting() == 1
        }),
        ("falls by one step of several", |k| {
            k.rise() <= -2 * k.step() && k.is_falling()
        }),
        ("falls from no multiple of h", |k| {
            k.is_falling() && k.key.before.tentative % k.step() != 0
        }),
        ("stays at the greatest age", |k| {
            k.key.before.age == *AGE.end() && k.figures.after.age == *AGE.end()
        }),
        ("t above the share's greatest rate", |k| {
            k.rise() >= k.step() && k.figures.after.tentative > *RATE.end()
        }),
        ("spread below 0", |k| k.sheet.spread(k.key) < 0),
        ("spread = tentative + liquidity - 1", |k| {
            k.past_needed() == -1
        }),
        ("spread = tentative + liquidity", |k| k.past_needed() == 0),
        ("spread = tentative + liquidity + 1", |k| {
            k.past_needed() == 1
        }),
        ("downward estimate from the spread", |k| {
            k.figures.down > k.figures.up && k.past_needed() > 0
        }),
        ("MM = tentative + liquidity - 1", |k| {
            k.sheet.mm == k.needed() - 1
        }),
        ("MM = tentative + liquidity", |k| k.sheet.mm == k.needed()),
        ("MM = tentative + liquidity + 1", |k| {
            k.sheet.mm == k.needed() + 1
        }),
        ("upward estimate from MM", |k| {
            k.figures.up > k.figures.down && k.sheet.mm > k.needed()
        }),
        ("upward estimate a multiple of h already", |k| {
            k.figures.up == k.needed() && k.step() > 1
        }),
        ("upward estimate one above a multiple of h", |k| {
            k.figures.up == k.needed().max(k.sheet.mm) + k.step() - 1 && k.step() > 2
        }),
        ("two-day change the greater", |k| {
            k.figures.change > (k.key.rate - k.key.rate_1).abs()
        }),
    ]
}

/// Whether the weighed volatility is not exact.
fn is_rounded_up(k: &SeenKey) -> bool {
    let (before, after) = (k.key.before.s, k.weighed());
    let a = match (k.holidays(), k.past_volatility()) {
        (2.., _) => 0,
        (_, 1..) => k.sheet.model.a_up,
        _ => k.sheet.model.a_down,
    };
    let square = |x: i64| x * x;
    10_000 * square(after) > (10_000 - a) * square(before) + a * square(k.figures.change)
}
