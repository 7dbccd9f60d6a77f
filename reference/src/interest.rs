//! The interest side (W-201): for each key maturity the change of its repo
//! rate, its volatility, tentative rate and estimates (14.4), and the rouble
//! repo band of a pair of terms (16.2). All figures are whole basis points. The
//! model is always on: 14.5 is not asked.

use crate::ewma::{self, Model, Volatility};
use crate::exact::{narrow, wide, Quotient};
use crate::refusal::Refusal;
use crate::statics::{MULTIPLIER, STEP, WAIT, WEIGHT, X_PR};
use crate::units::{
    Range, AGE, DAYS_BETWEEN, INTEREST_MINIMUM, INTEREST_TENTATIVE, INTEREST_VOLATILITY,
    MATURITY_DAYS, ONE_IN_HUNDREDTHS, REPO_RATE,
};

/// How many values a sheet has before its key maturities.
pub const VALUES: usize = 14;
/// Numbers in a key maturity.
pub const MATURITY: usize = 8;
/// Numbers in the most key maturities a sheet may give.
pub const MATURITIES_MAX: usize = 8 * MATURITY;
/// Numbers in a key maturity's figures.
const FIGURES: usize = 6;
/// The most figures that a sheet gives: the band's two, and those of the most
/// key maturities.
pub const FIGURES_MAX: usize = 2 + FIGURES * MATURITIES_MAX / MATURITY;

/// The ranges of a sheet's values, in the order of the text protocol.
pub const VALUE_RANGES: [Range; VALUES] = [
    DAYS_BETWEEN,
    MATURITY_DAYS,
    MATURITY_DAYS,
    WEIGHT,
    WEIGHT,
    MULTIPLIER,
    STEP,
    WAIT,
    INTEREST_MINIMUM,
    INTEREST_MINIMUM,
    INTEREST_MINIMUM,
    X_PR,
    REPO_RATE,
    REPO_RATE,
];

/// The ranges of a key maturity's numbers, in the order of the text protocol.
pub const MATURITY_RANGES: [Range; MATURITY] = [
    MATURITY_DAYS,
    REPO_RATE,
    REPO_RATE,
    REPO_RATE,
    REPO_RATE,
    INTEREST_VOLATILITY,
    INTEREST_TENTATIVE,
    AGE,
];

/// A volatility in basis points has one unit to a basis point.
const UNITS_IN_BP: i64 = 1;

/// A pair of terms Ym/Yn, in days.
#[derive(Clone, Copy, Debug, PartialEq, Eq)]
pub struct Pair {
    pub ym: i64,
    pub yn: i64,
}

impl Pair {
    /// Y0/Y1, which the money and security rollover rates hold (16.2).
    pub const HELD: Pair = Pair { ym: 0, yn: 1 };
}

/// A repo band.
#[derive(Clone, Copy, Debug, PartialEq, Eq)]
pub struct RepoBand {
    pub rrcl: i64,
    pub rrch: i64,
}

/// A key maturity before the evening.
#[derive(Clone, Copy, Debug)]
pub struct Key {
    /// The maturity T.
    pub days: i64,
    /// REPOrate today and on the two earlier days.
    pub rate: i64,
    pub rate_1: i64,
    pub rate_2: i64,
    /// REPOIndex.
    pub index: i64,
    pub before: Volatility,
}

/// A key maturity's figures after the evening.
#[derive(Clone, Copy, Debug, PartialEq, Eq)]
pub struct Figures {
    pub change: i64,
    pub after: Volatility,
    /// The upward estimate HΔ.
    pub up: i64,
    /// The downward estimate LΔ.
    pub down: i64,
}

/// What one security's evening gives the interest side, in range and order.
#[derive(Clone, Debug)]
pub struct Sheet {
    /// b.
    pub days_between: i64,
    pub pair: Pair,
    pub model: Model,
    /// liq_RR.
    pub liquidity: i64,
    /// MMΔ, the minimum of the upward estimate.
    pub mm: i64,
    /// SECΔ, the minimum of the downward estimate over the spread.
    pub sec: i64,
    /// x_IR, in hundredths.
    pub x_ir: i64,
    pub money: i64,
    /// The security rollover rate.
    pub security: i64,
    pub keys: Vec<Key>,
}

/// What the interest side gives.
#[derive(Clone, Debug, PartialEq, Eq)]
pub struct Worked {
    pub band: RepoBand,
    pub figures: Vec<Figures>,
}

impl Key {
    fn from_numbers(numbers: &[i64]) -> Key {
        Key {
            days: numbers[0],
            rate: numbers[1],
            rate_1: numbers[2],
            rate_2: numbers[3],
            index: numbers[4],
            before: Volatility {
                s: numbers[5],
                tentative: numbers[6],
                age: numbers[7],
            },
        }
    }

    fn numbers(&self) -> [i64; MATURITY] {
        [
            self.days,
            self.rate,
            self.rate_1,
            self.rate_2,
            self.index,
            self.before.s,
            self.before.tentative,
            self.before.age,
        ]
    }

    /// r_IR: the greater of the one-day and the two-day change.
    pub fn change(&self) -> i64 {
        let from = |earlier: i64| (self.rate - earlier).abs();
        from(self.rate_1).max(from(self.rate_2))
    }
}

fn are_in_range(numbers: &[i64], ranges: &[Range]) -> bool {
    numbers
        .iter()
        .zip(ranges)
        .all(|(number, range)| range.contains(number))
}

/// One to eight key maturities, every number in its range.
fn maturities_are_in_range(maturities: &[i64]) -> bool {
    !maturities.is_empty()
        && maturities.len() <= MATURITIES_MAX
        && maturities.len() % MATURITY == 0
        && maturities
            .chunks_exact(MATURITY)
            .all(|maturity| are_in_range(maturity, &MATURITY_RANGES))
}

impl Sheet {
    /// The sheet of plain numbers: refused 6, 14, the first that applies.
    pub fn from_numbers(values: &[i64; VALUES], maturities: &[i64]) -> Result<Sheet, Refusal> {
        if !are_in_range(values, &VALUE_RANGES) || !maturities_are_in_range(maturities) {
            return Err(Refusal::ValueOutOfRange);
        }
        let &[days_between, ym, yn, a_up, a_down, multiplier, step, wait, liquidity, mm, sec, x_ir, money, security] =
            values;
        let sheet = Sheet {
            days_between,
            pair: Pair { ym, yn },
            model: Model {
                a_up,
                a_down,
                multiplier,
                step,
                wait,
            },
            liquidity,
            mm,
            sec,
            x_ir,
            money,
            security,
            keys: maturities
                .chunks_exact(MATURITY)
                .map(Key::from_numbers)
                .collect(),
        };
        if sheet.is_ascending() {
            Ok(sheet)
        } else {
            Err(Refusal::TermsNotAscending)
        }
    }

    /// The sheet as plain numbers, in the order of the text protocol.
    pub fn numbers(&self) -> Vec<i64> {
        let mut numbers = vec![
            self.days_between,
            self.pair.ym,
            self.pair.yn,
            self.model.a_up,
            self.model.a_down,
            self.model.multiplier,
            self.model.step,
            self.model.wait,
            self.liquidity,
            self.mm,
            self.sec,
            self.x_ir,
            self.money,
            self.security,
        ];
        numbers.extend(self.keys.iter().flat_map(Key::numbers));
        numbers
    }

    /// Key maturities strictly ascending, Yn after Ym.
    fn is_ascending(&self) -> bool {
        let ascends = |two: &[Key]| two[0].days < two[1].days;
        self.keys.windows(2).all(ascends) && self.pair.ym < self.pair.yn
    }

    /// The figures of a key maturity (14.4).
    fn figures(&self, key: &Key) -> Figures {
        let change = key.change();
        let before = &key.before;
        let chosen = ewma::volatility(
            &self.model,
            before.s,
            change,
            before.tentative,
            self.days_between,
        );
        let s = chosen.s();
        let t = ewma::target(&self.model, s, UNITS_IN_BP);
        let after = ewma::stepped(&self.model, s, t, before);
        let estimate = |minimum: i64| self.estimate(after.tentative, minimum);
        Figures {
            change,
            after,
            up: estimate(self.mm),
            down: estimate(self.spread(key)),
        }
    }

    /// REPOIndex - REPOrate + SECΔ, which may be below 0.
    pub fn spread(&self, key: &Key) -> i64 {
        key.index - key.rate + self.sec
    }

    /// An estimate: the least multiple of h at or above the greater of
    /// tentative + liquidity and its minimum.
    fn estimate(&self, tentative: i64, minimum: i64) -> i64 {
        let needed = Quotient {
            numerator: wide((tentative + self.liquidity).max(minimum)),
            denominator: 1,
        };
        needed.up_to(self.model.step)
    }

    /// A term's figure from those of the key maturities (14.6), exactly: on the
    /// line between the two beside it, and outside them the nearest one's.
    pub fn at(&self, term: i64, figures: &[i64]) -> Quotient {
        let next = self.keys.partition_point(|key| key.days < term);
        let beside = next.checked_sub(1).zip(self.keys.get(next));
        let (last, key) = match beside {
            Some(beside) => beside,
            None => {
                let nearest = next.min(figures.len() - 1);
                return Quotient {
                    numerator: wide(figures[nearest]),
                    denominator: 1,
                };
            }
        };
        let since = wide(term - self.keys[last].days);
        let until = wide(key.days - term);
        Quotient {
            numerator: wide(figures[last]) * until + wide(figures[next]) * since,
            denominator: since + until,
        }
    }

    /// The limits of the pair's band before they are rounded and held (16.2):
    /// the forward rate less 100·LΔ(Yn)/x_IR and plus 100·HΔ(Yn)/x_IR. The swap
    /// rate of roubles is 0, so 36,500 cancels.
    pub fn limits(&self, figures: &[Figures]) -> (Quotient, Quotient) {
        let Pair { ym, yn } = self.pair;
        let rates: Vec<i64> = self.keys.iter().map(|key| key.rate).collect();
        let ups: Vec<i64> = figures.iter().map(|figures| figures.up).collect();
        let downs: Vec<i64> = figures.iter().map(|figures| figures.down).collect();
        let rate_days = |term: i64| self.at(term, &rates).half_up() * wide(term);
        let days = wide(yn - ym);
        let x_ir = wide(self.x_ir);
        let from_forward = |estimate: i128| Quotient {
            numerator: (rate_days(yn) - rate_days(ym)) * x_ir + ONE_IN_HUNDREDTHS * estimate * days,
            denominator: days * x_ir,
        };
        (
            from_forward(-self.at(yn, &downs).half_up()),
            from_forward(self.at(yn, &ups).half_up()),
        )
    }

    /// The rouble repo band of the pair, each limit rounded once. Y0/Y1 is then
    /// held by the money and security rollover rates; the two may cross.
    fn band(&self, figures: &[Figures]) -> RepoBand {
        let (lower, upper) = self.limits(figures);
        let (lower, upper) = (narrow(lower.half_up()), narrow(upper.half_up()));
        if self.pair == Pair::HELD {
            RepoBand {
                rrcl: lower.max(self.security),
                rrch: upper.min(self.money),
            }
        } else {
            RepoBand {
                rrcl: lower,
                rrch: upper,
            }
        }
    }

    /// What the interest side gives for the sheet.
    pub fn worked(&self) -> Worked {
        let figures: Vec<Figures> = self.keys.iter().map(|key| self.figures(key)).collect();
        Worked {
            band: self.band(&figures),
            figures,
        }
    }
}

impl Figures {
    fn numbers(&self) -> [i64; FIGURES] {
        [
            self.change,
            self.after.s,
            self.after.tentative,
            self.after.age,
            self.up,
            self.down,
        ]
    }
}

impl Worked {
    /// The figures in the order of the text protocol.
    pub fn numbers(&self) -> Vec<i64> {
        let mut numbers = vec![self.band.rrcl, self.band.rrch];
        numbers.extend(self.figures.iter().flat_map(Figures::numbers));
        numbers
    }
}
