//! The edges of interpolation (14.6) and of a pair's band (16.2).

use crate::exact::Quotient;
use crate::interest::{Figures, Pair, Sheet, Worked};
use crate::tally::Edge;
use crate::units::REPO_RATE;

/// An accepted sheet.
pub struct SeenSheet<'s> {
    pub sheet: &'s Sheet,
    pub worked: &'s Worked,
    pub lower: Quotient,
    pub upper: Quotient,
    /// Whether it is the next evening of one that was accepted lately.
    pub is_chained: bool,
}

/// Where a term lies among the key maturities.
#[derive(PartialEq)]
enum Place {
    Before,
    At,
    Between,
    After,
}

impl SeenSheet<'_> {
    fn is_placed(&self, place: Place) -> bool {
        let Pair { ym, yn } = self.sheet.pair;
        let keys = &self.sheet.keys;
        let placed = |term: i64| {
            if keys.iter().any(|key| key.days == term) {
                Place::At
            } else if term < keys[0].days {
                Place::Before
            } else if term > keys[keys.len() - 1].days {
                Place::After
            } else {
                Place::Between
            }
        };
        placed(ym) == place || placed(yn) == place
    }

    /// The terms' rates before they are rounded.
    fn rates(&self) -> [Quotient; 2] {
        let rates: Vec<i64> = self.sheet.keys.iter().map(|key| key.rate).collect();
        [self.sheet.pair.ym, self.sheet.pair.yn].map(|term| self.sheet.at(term, &rates))
    }

    /// The estimate at Yn before it is rounded.
    fn estimate(&self, of: fn(&Figures) -> i64) -> Quotient {
        let figures: Vec<i64> = self.worked.figures.iter().map(of).collect();
        self.sheet.at(self.sheet.pair.yn, &figures)
    }

    fn is_held(&self) -> bool {
        self.sheet.pair == Pair::HELD
    }

    /// The money rate stands so far above the upper limit.
    fn is_money(&self, above: i128) -> bool {
        i128::from(self.sheet.money) == self.upper.half_up() + above
    }

    /// The security rate stands so far above the lower limit.
    fn is_security(&self, above: i128) -> bool {
        i128::from(self.sheet.security) == self.lower.half_up() + above
    }

    /// The upper limit would be another one were the forward rate and the
    /// estimate's share rounded apart.
    fn is_rounded_once(&self) -> bool {
        let share = Quotient {
            numerator: 100 * self.estimate(|figures| figures.up).half_up(),
            denominator: i128::from(self.sheet.x_ir),
        };
        let forward = Quotient {
            numerator: self.upper.numerator * share.denominator
                - share.numerator * self.upper.denominator,
            denominator: self.upper.denominator * share.denominator,
        };
        forward.half_up() + share.half_up() != self.upper.half_up()
    }
}

/// Halfway between two whole numbers.
fn is_tie(quotient: &Quotient) -> bool {
    2 * quotient.numerator.rem_euclid(quotient.denominator) == quotient.denominator
}

fn is_tie_above(quotient: &Quotient) -> bool {
    is_tie(quotient) && quotient.numerator > 0
}

fn is_tie_below(quotient: &Quotient) -> bool {
    is_tie(quotient) && quotient.numerator < 0
}

pub fn edges<'s>() -> Vec<Edge<SeenSheet<'s>>> {
    vec![
        ("a term before the first maturity", |s| {
            s.is_placed(Place::Before)
        }),
        ("a term at a maturity", |s| s.is_placed(Place::At)),
        ("a term between maturities", |s| s.is_placed(Place::Between)),
        ("a term after the last maturity", |s| {
            s.is_placed(Place::After)
        }),
        ("tie of a rate above 0", |s| {
            s.rates().iter().any(is_tie_above)
        }),
        ("tie of a rate below 0", |s| {
            s.rates().iter().any(is_tie_below)
        }),
        ("tie of an upward estimate", |s| {
            is_tie(&s.estimate(|figures| figures.up))
        }),
        ("tie of a downward estimate", |s| {
            is_tie(&s.estimate(|figures| figures.down))
        }),
        ("tie of an upper limit above 0", |s| is_tie_above(&s.upper)),
        ("tie of an upper limit below 0", |s| is_tie_below(&s.upper)),
        ("tie of a lower limit above 0", |s| is_tie_above(&s.lower)),
        ("tie of a lower limit below 0", |s| is_tie_below(&s.lower)),
        ("upper limit not the sum of rounded parts", |s| {
            s.is_rounded_once()
        }),
        ("0/1, money one below the upper limit", |s| {
            s.is_held() && s.is_money(-1)
        }),
        ("0/1, money at the upper limit", |s| {
            s.is_held() && s.is_money(0)
        }),
        ("0/1, money one above the upper limit", |s| {
            s.is_held() && s.is_money(1)
        }),
        ("0/1, security one below the lower limit", |s| {
            s.is_held() && s.is_security(-1)
        }),
        ("0/1, security at the lower limit", |s| {
            s.is_held() && s.is_security(0)
        }),
        ("0/1, security one above the lower limit", |s| {
            s.is_held() && s.is_security(1)
        }),
        ("another pair, money one below the upper limit", |s| {
            !s.is_held() && s.is_money(-1)
        }),
        ("another pair, money at the upper limit", |s| {
            !s.is_held() && s.is_money(0)
        }),
        ("another pair, money one above the upper limit", |s| {
            !s.is_held() && s.is_money(1)
        }),
        ("another pair, security one below the lower limit", |s| {
            !s.is_held() && s.is_security(-1)
        }),
        ("another pair, security at the lower limit", |s| {
            !s.is_held() && s.is_security(0)
        }),
        ("another pair, security one above the lower limit", |s| {
            !s.is_held() && s.is_security(1)
        }),
        ("pair 0/2 or 1/2 that would be held", |s| {
            s.sheet.pair.yn == 2 && (s.is_money(-1) || s.is_security(1))
        }),
        ("band crossed", |s| s.worked.band.rrcl > s.worked.band.rrch),
        ("upper limit above 9,999", |s| {
            s.worked.band.rrch > *REPO_RATE.end()
        }),
        ("lower limit below -9,999", |s| {
            s.worked.band.rrcl < *REPO_RATE.start()
        }),
        ("one maturity", |s| s.sheet.keys.len() == 1),
        ("eight maturities", |s| s.sheet.keys.len() == 8),
        ("the next evening of an accepted sheet", |s| s.is_chained),
        ("Yn = Ym + 1", |s| s.sheet.pair.yn == s.sheet.pair.ym + 1),
        ("Ym 0 and Yn 365", |s| {
            s.sheet.pair.ym == 0 && s.sheet.pair.yn == 365
        }),
    ]
}
