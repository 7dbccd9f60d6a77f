//! Bonds (W-206): the gross evaluation of clause 8.10, rates by the share rules
//! from a given volatility, and the limits of clause 11.1 on the book and off
//! it. A bond comes by value, and nothing is kept of it.

use crate::ewma::{self, Volatility};
use crate::exact::{narrow, wide, Quotient};
use crate::limits::{beside_one, furthest, growth, narrower, spread, units};
use crate::rates::{level_rates, target};
use crate::record::{is_tentative, Side};
use crate::refusal::Refusal;
use crate::security::RepoTerm;
use crate::statics::{
    Statics, BAND_MAXIMUM, HORIZON, HORIZON_1, LIQ, MULTIPLIER, NEARNESS, NEAR_SECONDS, SHIFT,
    STEP, WAIT, WEIGHT, X_PR,
};
use crate::units::{
    Range, AGE, BOND_MONEY, DAYS_AHEAD, DAYS_CLOSED, EVENING_MOVES, FLOW_DAY, NET,
    ONE_IN_HUNDREDTHS_OF_A_PER_CENT, PRICE, RATE, REPO_RATE, TENTATIVE, VOLATILITY,
};

/// How many values a bond has before its cash flows: eight of its own, three to
/// a term and its statics.
pub const VALUES: usize = TERMS + 9 + STATICS;
/// The place of the first term among the values.
pub const TERMS: usize = 8;
/// The statics that a bond uses.
const STATICS: usize = 16;
/// Numbers in a cash flow.
pub const FLOW: usize = 2;
/// Numbers in the most cash flows a bond may have.
pub const FLOWS_MAX: usize = 4 * FLOW;
/// Figures of a worked bond.
pub const FIGURES: usize = 6 + 4 * 3;

/// A flag given as a number.
const FLAG: Range = 0..=1;
/// How far from the gross evaluation a limit off the book may stand, in basis
/// points.
const OFF_BOOK: i64 = 2_000;

/// The ranges of a bond's values, in the order of the text protocol.
pub const VALUE_RANGES: [Range; VALUES] = [
    DAYS_CLOSED,
    NET,
    BOND_MONEY,
    BOND_MONEY,
    REPO_RATE,
    VOLATILITY,
    TENTATIVE,
    AGE,
    DAYS_AHEAD,
    REPO_RATE,
    REPO_RATE,
    DAYS_AHEAD,
    REPO_RATE,
    REPO_RATE,
    DAYS_AHEAD,
    REPO_RATE,
    REPO_RATE,
    STEP,
    MULTIPLIER,
    WAIT,
    HORIZON_1,
    HORIZON,
    HORIZON,
    LIQ,
    RATE,
    RATE,
    RATE,
    RATE,
    X_PR,
    BAND_MAXIMUM,
    BAND_MAXIMUM,
    FLAG,
    FLAG,
];

/// The ranges of a cash flow's numbers.
pub const FLOW_RANGES: [Range; FLOW] = [FLOW_DAY, BOND_MONEY];

/// A payment of the bond.
#[derive(Clone, Copy, Debug, PartialEq, Eq)]
pub struct Flow {
    pub day: i64,
    pub amount: i64,
}

/// A bond whose every value is in range.
#[derive(Clone, Debug)]
pub struct Bond {
    /// m.
    pub days_closed: i64,
    /// The net evaluation, in hundredths of a per cent.
    pub net: i64,
    pub face: i64,
    pub accrued: i64,
    /// REPORate.
    pub repo_rate: i64,
    pub before: Volatility,
    pub terms: [RepoTerm; 3],
    /// What a bond does not use stands at its least, and nothing reads it.
    pub statics: Statics,
    pub flows: Vec<Flow>,
}

/// What a limit is made of: S_1/x_pr with the repo band of its term, or a
/// maximum or 20 per cent with REPORate.
#[derive(Clone, Copy, Debug, PartialEq, Eq)]
pub enum Reach {
    Monitored,
    Furthest,
    OffBook,
}

/// The limits of a term, in hundredths of a per cent of the face value.
#[derive(Clone, Copy, Debug, PartialEq, Eq)]
pub struct Limits {
    pub lower: i64,
    pub upper: i64,
    pub off_lower: i64,
    pub off_upper: i64,
}

/// What a bond's evaluation gives.
#[derive(Clone, Copy, Debug, PartialEq, Eq)]
pub struct Worked {
    /// The gross evaluation P.
    pub p: i64,
    pub tentative: i64,
    pub age: i64,
    pub rates: [i64; 3],
    pub limits: [Limits; 3],
}

fn are_in_range(numbers: &[i64], ranges: &[Range]) -> bool {
    numbers
        .iter()
        .zip(ranges)
        .all(|(number, range)| range.contains(number))
}

/// Zero to four cash flows, each in its range.
fn flows_are_in_range(flows: &[i64]) -> bool {
    flows.len() <= FLOWS_MAX
        && flows.len() % FLOW == 0
        && flows
            .chunks_exact(FLOW)
            .all(|flow| are_in_range(flow, &FLOW_RANGES))
}

/// A bond's statics among a share's.
fn statics(numbers: &[i64]) -> Option<Statics> {
    let numbers = <&[i64; STATICS]>::try_from(numbers).ok()?;
    let &[step, multiplier, wait, rh1, rh2, rh3, liq, min1, min2, min3, s_max, ref others @ ..] =
        numbers;
    let &[x_pr, pch_max, pcl_max, monitoring, is_ewma] = others;
    let statics = Statics {
        lot: 1,
        step,
        multiplier,
        a_up: *WEIGHT.start(),
        a_down: *WEIGHT.start(),
        wait,
        horizons: [rh1, rh2, rh3],
        liq,
        minima: [min1, min2, min3],
        s_max,
        x_pr,
        shift: *SHIFT.start(),
        pch_max,
        pcl_max,
        nearness: *NEARNESS.start(),
        near_seconds: *NEAR_SECONDS.start(),
        monitoring: monitoring == 1,
        is_ewma: is_ewma == 1,
        evening_seconds: *NEAR_SECONDS.start(),
        autochange: false,
        evening_maximum: *EVENING_MOVES.start(),
        use_external: false,
    };
    statics.is_sound().then_some(statics)
}

impl Bond {
    /// The bond of plain numbers; none where one is out of its range.
    pub fn from_numbers(values: &[i64; VALUES], flows: &[i64]) -> Option<Bond> {
        if !are_in_range(values, &VALUE_RANGES) || !flows_are_in_range(flows) {
            return None;
        }
        let (own, rest) = values.split_at(TERMS);
        let (terms, given_statics) = rest.split_at(9);
        let statics = statics(given_statics)?;
        let term = |index: usize| RepoTerm {
            days: terms[3 * index],
            rrcl: terms[3 * index + 1],
            rrch: terms[3 * index + 2],
        };
        let bond = Bond {
            days_closed: own[0],
            net: own[1],
            face: own[2],
            accrued: own[3],
            repo_rate: own[4],
            before: Volatility {
                s: own[5],
                tentative: own[6],
                age: own[7],
            },
            terms: [term(0), term(1), term(2)],
            statics,
            flows: flows
                .chunks_exact(FLOW)
                .map(|flow| Flow {
                    day: flow[0],
                    amount: flow[1],
                })
                .collect(),
        };
        let are_terms = bond.terms.iter().all(RepoTerm::is_in_range);
        (are_terms && is_tentative(&statics, bond.before.tentative)).then_some(bond)
    }

    /// The bond as plain numbers, in the order of the text protocol.
    pub fn numbers(&self) -> Vec<i64> {
        let statics = &self.statics;
        let mut numbers = vec![
            self.days_closed,
            self.net,
            self.face,
            self.accrued,
            self.repo_rate,
            self.before.s,
            self.before.tentative,
            self.before.age,
        ];
        for term in &self.terms {
            numbers.extend([term.days, term.rrcl, term.rrch]);
        }
        numbers.extend([statics.step, statics.multiplier, statics.wait]);
        numbers.extend(statics.horizons);
        numbers.push(statics.liq);
        numbers.extend(statics.minima);
        numbers.extend([
            statics.s_max,
            statics.x_pr,
            statics.pch_max,
            statics.pcl_max,
            i64::from(statics.monitoring),
            i64::from(statics.is_ewma),
        ]);
        for flow in &self.flows {
            numbers.extend([flow.day, flow.amount]);
        }
        numbers
    }

    /// net·face/10,000, exactly.
    pub fn clean(&self) -> Quotient {
        Quotient {
            numerator: wide(self.net) * wide(self.face),
            denominator: ONE_IN_HUNDREDTHS_OF_A_PER_CENT,
        }
    }

    /// The gross evaluation P (8.10).
    pub fn gross(&self) -> i64 {
        narrow(self.clean().half_up()) + self.accrued
    }

    /// Tentative rate and age by the share rules; with isEWMA no they stay.
    pub fn after(&self) -> Volatility {
        if !self.statics.is_ewma {
            return self.before;
        }
        let t = target(&self.statics, self.before.s);
        ewma::stepped(&self.statics.model(), self.before.s, t, &self.before)
    }

    pub fn rates(&self) -> [i64; 3] {
        level_rates(&self.statics, self.after().tentative, self.days_closed)
    }

    /// What a cash flow has become k days on, exactly.
    pub fn carried(&self, flow: &Flow, k: i64) -> Quotient {
        units(flow.amount).times(growth(self.repo_rate, k - flow.day))
    }

    /// The cash flows up to day k.
    pub fn paid(&self, k: i64) -> impl Iterator<Item = &Flow> {
        self.flows.iter().filter(move |flow| flow.day <= k)
    }

    /// Carry(k): each flow rounded half up to a unit.
    pub fn carry(&self, k: i64) -> i128 {
        self.paid(k)
            .map(|flow| self.carried(flow, k).half_up())
            .sum()
    }

    /// P grown to day k, exactly.
    pub fn grown(&self, s_1: i64, term: &RepoTerm, reach: Reach, side: Side) -> Quotient {
        let band_rate = match side {
            Side::Upper => term.rrch,
            Side::Lower => term.rrcl,
        };
        let (factor, rate) = match reach {
            Reach::Monitored => (spread(&self.statics, s_1, 0, side), band_rate),
            Reach::Furthest => (furthest(&self.statics, side), self.repo_rate),
            Reach::OffBook => (beside_one(OFF_BOOK, side), self.repo_rate),
        };
        units(self.gross())
            .times(factor)
            .times(growth(rate, term.days))
    }

    /// (grown - Carry - accrued)·100/face in hundredths of a per cent, exactly:
    /// the limit before it is rounded, below 0 too.
    pub fn exact_limit(&self, grown: i128, k: i64) -> Quotient {
        let left = grown - self.carry(k) - wide(self.accrued);
        Quotient {
            numerator: left * ONE_IN_HUNDREDTHS_OF_A_PER_CENT,
            denominator: wide(self.face),
        }
    }

    /// The limit that one reach alone would give: the grown price half up to a
    /// unit.
    pub fn reached(&self, s_1: i64, term: &RepoTerm, reach: Reach, side: Side) -> Quotient {
        let grown = self.grown(s_1, term, reach, side).half_up();
        self.exact_limit(grown, term.days)
    }

    /// A limit on the book and the one off it, before they are rounded.
    fn exact_limits(&self, s_1: i64, term: &RepoTerm, side: Side) -> (Quotient, Quotient) {
        let furthest = self.reached(s_1, term, Reach::Furthest, side);
        let on_book = if self.statics.monitoring {
            let monitored = self.reached(s_1, term, Reach::Monitored, side);
            narrower(furthest, monitored, side)
        } else {
            furthest
        };
        let off_book = self.reached(s_1, term, Reach::OffBook, side);
        (on_book, narrower(on_book, off_book, side))
    }

    /// The limits of a term; those of side after side, on the book and off it.
    pub fn limits(&self, s_1: i64, term: &RepoTerm) -> Limits {
        let (lower, off_lower) = self.exact_limits(s_1, term, Side::Lower);
        let (upper, off_upper) = self.exact_limits(s_1, term, Side::Upper);
        Limits {
            lower: rounded(lower, Side::Lower),
            upper: rounded(upper, Side::Upper),
            off_lower: rounded(off_lower, Side::Lower),
            off_upper: rounded(off_upper, Side::Upper),
        }
    }
}

/// A limit rounded to a hundredth of a per cent into the band (W-209); 0 where
/// it is below 0.
pub fn rounded(limit: Quotient, side: Side) -> i64 {
    narrow(limit.rounded(side.inward()).max(0))
}

impl Limits {
    /// A lower limit above its upper one, on the book or off it.
    pub fn are_crossed(&self) -> bool {
        self.lower > self.upper || self.off_lower > self.off_upper
    }

    pub fn numbers(&self) -> [i64; 4] {
        [self.lower, self.upper, self.off_lower, self.off_upper]
    }
}

/// Works a bond out: refused 6, 17, 7, 9, the first that applies.
pub fn worked(values: &[i64; VALUES], flows: &[i64]) -> Result<Worked, Refusal> {
    let bond = Bond::from_numbers(values, flows).ok_or(Refusal::ValueOutOfRange)?;
    if bond.face == 0 {
        return Err(Refusal::NoFaceValue);
    }
    let p = bond.gross();
    if !PRICE.contains(&p) {
        return Err(Refusal::EvaluationOutOfRange);
    }
    let after = bond.after();
    let rates = bond.rates();
    let limits = bond.terms.map(|term| bond.limits(rates[0], &term));
    if limits.iter().any(Limits::are_crossed) {
        return Err(Refusal::BandCrossed);
    }
    Ok(Worked {
        p,
        tentative: after.tentative,
        age: after.age,
        rates,
        limits,
    })
}

impl Worked {
    /// The figures in the order of the text protocol.
    pub fn numbers(&self) -> [i64; FIGURES] {
        let mut numbers = [0; FIGURES];
        numbers[..3].copy_from_slice(&[self.p, self.tentative, self.age]);
        numbers[3..6].copy_from_slice(&self.rates);
        for (place, limits) in numbers[6..].chunks_exact_mut(4).zip(&self.limits) {
            place.copy_from_slice(&limits.numbers());
        }
        numbers
    }
}
