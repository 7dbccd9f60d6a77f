//! Bonds, most of them in range, and bonds that are made for an edge of W-206:
//! each edge that the count knows is aimed at in its turn.

use crate::bond::{Bond, Flow, Reach, FLOW, TERMS, VALUES};
use crate::count_bond::{reduced, Aim, Beside, End, Place, Ranged, SeenBond};
use crate::ewma::Volatility;
use crate::exact::{narrow, wide, Quotient};
use crate::limits::growth;
use crate::random::Random;
use crate::record::Side;
use crate::security::RepoTerm;
use crate::statics::HORIZON;
use crate::units::{AGE, BOND_MONEY, FLOW_DAY, NET, PRICE, RATE, REPO_RATE};

use super::edges::{ends, Ends};
use super::share;

/// Attempts at a bond that stands at an edge.
const ATTEMPTS: usize = 4_000;
/// Days of terms and flows that come often.
const DAYS: [i64; 10] = [0, 0, 1, 2, 5, 10, 20, 25, 29, 30];
/// A repo rate of which ten thousand days are a year's per cent, so that a
/// growth has few parts: 3,650,000/10,000.
const ROUND_RATE: i64 = 365;
/// The greatest face value of which a unit is a hundredth of a per cent.
const FINE_FACE: i64 = 10_000;

/// Places of a bond's values.
const FACE: usize = 2;
const ACCRUED: usize = 3;
const TENTATIVE: usize = 6;
const STEP: usize = 17;
const RH: usize = 20;
const RH_3: usize = 22;
const MINIMA: usize = 24;
const S_MAX: usize = 27;

/// A bond in range whose gross evaluation is a price.
pub fn bond(random: &mut Random) -> Bond {
    let statics = share::statics(random);
    let tentative = share::tentative(random, &statics);
    let repo_rate = rate(random);
    let terms = [0; 3].map(|_: i64| term(random));
    let mut bond = Bond {
        days_closed: random.pick(&[0, 0, 0, 1, 3, 6, 10]),
        net: net(random),
        face: face(random),
        accrued: 0,
        repo_rate,
        before: Volatility {
            s: share::volatility(random, &statics, tentative),
            tentative,
            age: age(random, statics.wait),
        },
        terms,
        statics,
        flows: Vec::new(),
    };
    while !PRICE.contains(&bond.gross()) {
        (bond.net, bond.face) = (net(random), face(random));
    }
    let room = (PRICE.end() - bond.gross()).min(bond.gross());
    let any = random.any_size(room);
    bond.accrued = random.pick(&[0, any, room / 50, room]);
    bond.flows = flows(random, &bond);
    bond
}

fn net(random: &mut Random) -> i64 {
    match random.below(4) {
        0 => random.pick(&[1, 5_000, 9_985, 10_000, 10_001, 29_999, 30_000]),
        1 => random.between(*NET.start(), *NET.end()),
        _ => random.between(8_000, 12_000),
    }
}

fn face(random: &mut Random) -> i64 {
    match random.below(6) {
        0 => random.pick(&[1, 2, 3, 9_999, 10_000, 20_000, 40_000, *BOND_MONEY.end()]),
        1 => 20_000 * random.between(1, 50),
        2 => random.any_size(*BOND_MONEY.end()).max(1),
        _ => random.pick(&[1_000_000, 10_000_000, 10_000_000, 5_000_000]),
    }
}

/// A repo rate, often one that grows by few parts.
fn rate(random: &mut Random) -> i64 {
    match random.below(6) {
        0 => 0,
        1 => random.pick(&[*REPO_RATE.start(), *REPO_RATE.end()]),
        2 => random.between(*REPO_RATE.start(), *REPO_RATE.end()),
        _ => ROUND_RATE * random.between(-27, 27),
    }
}

fn term(random: &mut Random) -> RepoTerm {
    let (one, other) = match random.below(5) {
        0 => (0, 0),
        1 => {
            let rate = rate(random);
            (rate, rate)
        }
        _ => (rate(random), rate(random)),
    };
    RepoTerm {
        days: share::either(random, &DAYS, (0, 30)),
        rrcl: one.min(other),
        rrch: one.max(other),
    }
}

/// An age: one short of the wait, at it, or any.
fn age(random: &mut Random, wait: i64) -> i64 {
    let age = match random.below(8) {
        0 => 0,
        1 => *AGE.end() - random.between(0, 1),
        2 => random.between(0, *AGE.end()),
        3 | 4 => wait - 2,
        _ => wait - 1,
    };
    age.clamp(*AGE.start(), *AGE.end())
}

/// No flow to four, on, after or before the days of the terms.
fn flows(random: &mut Random, bond: &Bond) -> Vec<Flow> {
    let count = random.pick(&[0, 0, 1, 1, 2, 2, 3, 4]);
    let p = bond.gross();
    let flow = |random: &mut Random| Flow {
        day: flow_day(random, bond),
        amount: match random.below(8) {
            0 => random.pick(&[0, 1, *BOND_MONEY.end()]),
            1 => random.any_size(p),
            _ => random.any_size(p / 20 + 1),
        },
    };
    (0..count).map(|_| flow(random)).collect()
}

fn flow_day(random: &mut Random, bond: &Bond) -> i64 {
    let k = random.pick(&bond.terms).days;
    let day = match random.below(6) {
        0 => random.between(*FLOW_DAY.start(), *FLOW_DAY.end()),
        1 | 2 => k + 1,
        3 => k - random.between(0, 5),
        _ => k,
    };
    day.clamp(*FLOW_DAY.start(), *FLOW_DAY.end())
}

/// The numbers of a bond at an edge; those of any bond where none was found.
pub fn at(random: &mut Random, aim: Aim) -> Vec<i64> {
    let mut numbers = Vec::new();
    for _ in 0..ATTEMPTS {
        numbers = attempt(random, aim);
        if aim.is_met(&SeenBond::of(&numbers)) {
            break;
        }
    }
    numbers
}

fn attempt(random: &mut Random, aim: Aim) -> Vec<i64> {
    match aim {
        Aim::End(place, end) => at_an_end(random, place, end),
        Aim::Rounding(place, beside) => rounding(random, place, beside).numbers(),
        Aim::Other(_) => any(random),
    }
}

/// A bond of any kind: plain, narrow, tiny, with one number changed, or with
/// flows of any length.
fn any(random: &mut Random) -> Vec<i64> {
    let bond = match random.below(8) {
        0 => narrow_band(random),
        1 => small(random),
        2 => beside_20_per_cent(random),
        3 => cheap(random),
        _ => bond(random),
    };
    let mut numbers = bond.numbers();
    match random.below(12) {
        0 => lengthen(random, &mut numbers),
        1 => misfit(random, &mut numbers),
        2 => spent(random, &bond, &mut numbers),
        3 => at_a_price_end(random, &mut numbers),
        4 => {
            numbers[FACE] = 0;
            numbers[ACCRUED] = random.pick(&[0, numbers[ACCRUED]]);
            let is_misfit = random.chance(30);
            if is_misfit {
                misfit(random, &mut numbers);
            }
        }
        _ => {}
    }
    numbers
}

/// A bond whose limits nearly meet.
fn narrow_band(random: &mut Random) -> Bond {
    let mut bond = bond(random);
    let near = |random: &mut Random| random.pick(&[0, 0, 1, 1, 2, 10, 100]);
    bond.statics.pch_max = near(random);
    bond.statics.pcl_max = near(random);
    if random.chance(50) {
        bond.statics.monitoring = false;
    }
    if random.chance(30) {
        let term = random.below(3);
        let rate = random.pick(&[*REPO_RATE.start(), *REPO_RATE.end(), 300, -300]);
        bond.terms[term] = RepoTerm {
            days: 30,
            rrcl: rate,
            rrch: rate,
        };
    }
    if random.chance(30) {
        bond.terms = [bond.terms[random.below(3)]; 3];
    }
    if random.chance(30) {
        cross(random, &mut bond);
    }
    bond
}

/// Makes a repo band stand a little above REPORate, so that with no spread a
/// lower limit stands at or a little above its upper one.
fn cross(random: &mut Random, bond: &mut Bond) {
    let statics = &mut bond.statics;
    (statics.monitoring, statics.is_ewma) = (true, false);
    statics.minima[0] = 0;
    statics.pch_max = random.between(0, 1);
    let place = random.below(3);
    let term = &mut bond.terms[place];
    term.days = random.between(5, 30);
    // A hundredth of a per cent is 365 day basis points of a bond at par.
    let apart = ROUND_RATE * random.between(0, 3) / term.days + random.between(0, 2);
    term.rrcl = (bond.repo_rate + apart).min(*REPO_RATE.end());
    term.rrch = *REPO_RATE.end();
}

/// A bond of few units, with few flows.
fn small(random: &mut Random) -> Bond {
    let mut bond = bond(random);
    bond.face = random.pick(&[1, 2, 3, 10, 100]);
    bond.net = random.between(1, 30_000);
    bond.accrued = random.between(0, 3);
    bond.flows.truncate(2);
    for flow in &mut bond.flows {
        flow.amount = random.between(0, 9);
    }
    bond
}

/// A bond of so little net value that a hundredth of a per cent of its face is
/// much of it, with a flow that leaves a part of it.
fn cheap(random: &mut Random) -> Bond {
    let mut bond = bond(random);
    bond.net = random.between(1, 5);
    bond.face = 10_000 * random.between(1, 200);
    bond.accrued = 0;
    let p = bond.gross();
    bond.statics.pch_max = random.pick(&[10_000, 10_000, 5_000, 2_000, 100]);
    bond.statics.pcl_max = random.pick(&[10_000, 10_000, 5_000, 2_000, 100]);
    bond.statics.monitoring = random.chance(30);
    bond.flows = vec![Flow {
        day: random.pick(&[1, 1, 2]),
        amount: random.between(0, p),
    }];
    bond
}

/// A bond whose widest limits stand beside 20 per cent.
fn beside_20_per_cent(random: &mut Random) -> Bond {
    let mut bond = bond(random);
    let beside = |random: &mut Random| 2_000 + random.between(-1, 1);
    bond.statics.pch_max = beside(random);
    bond.statics.pcl_max = beside(random);
    bond.statics.monitoring = random.chance(30);
    bond
}

/// Flows of no permitted count, or beside it.
fn lengthen(random: &mut Random, numbers: &mut Vec<i64>) {
    let length = random.pick(&[1, 2, 3, 5, 7, 8, 9, 10, 11, 12, 64, 93, 94, 101, 128]);
    numbers.truncate(VALUES + length);
    while numbers.len() < VALUES + length {
        numbers.push(random.between(1, 30));
    }
}

/// One relation of the values fails by the least there is.
fn misfit(random: &mut Random, numbers: &mut [i64]) {
    match random.below(8) {
        0 => {
            let low = TERMS + 3 * random.below(3) + 1;
            numbers[low] = numbers[low + 1] + 1;
        }
        1 => numbers[TENTATIVE] = numbers[S_MAX] + numbers[STEP],
        7 => {
            let statics = share::statics_of_step(random);
            numbers[STEP] = statics.step;
            numbers[MINIMA..S_MAX].copy_from_slice(&statics.minima);
            numbers[S_MAX] = statics.s_max;
            numbers[TENTATIVE] = share::top(random, &statics);
        }
        2 => numbers[TENTATIVE] += 1,
        3 => numbers[MINIMA + 2] = numbers[S_MAX] + numbers[STEP],
        4 => numbers[S_MAX] -= 1,
        5 => numbers[RH + 1] = numbers[RH] - 1,
        _ => numbers[random.below(VALUES)] = random.pick(&[-1, i64::MIN, i64::MAX, 1 << 32]),
    }
}

/// A flow that leaves a limit a little above 0, at it or below it.
fn spent(random: &mut Random, bond: &Bond, numbers: &mut Vec<i64>) {
    let term = random.pick(&bond.terms);
    if !FLOW_DAY.contains(&term.days) {
        return;
    }
    let side = random.pick(&[Side::Upper, Side::Lower]);
    let grown = bond.grown(bond.rates()[0], &term, Reach::Furthest, side);
    let left = grown.half_up() - wide(bond.accrued) - wide(random.between(-2, 2));
    numbers.truncate(VALUES);
    numbers.extend([term.days, narrow(left.clamp(0, wide(*BOND_MONEY.end())))]);
}

/// A gross evaluation of 0 or 1, or of the greatest price or one above it.
fn at_a_price_end(random: &mut Random, numbers: &mut [i64]) {
    let [net, face, accrued] = random.pick(&[
        [1, 1, 0],
        [1, 1, 1],
        [4_999, 1, 0],
        [5_000, 1, 0],
        [10_000, *BOND_MONEY.end(), 0],
        [10_000, *BOND_MONEY.end(), 1],
        [10_000, *BOND_MONEY.end() - 1, 1],
        [5_000, *BOND_MONEY.end() / 5, 9_000_000_000],
        [5_000, *BOND_MONEY.end() / 5, 9_000_000_001],
        [30_000, *BOND_MONEY.end() / 3, 0],
        [30_000, *BOND_MONEY.end() / 3, 1],
        [30_000, *BOND_MONEY.end() / 3, 2],
    ]);
    numbers[1..4].copy_from_slice(&[net, face, accrued]);
}

/// A bond with one number at an end of its range, or one past it, and the
/// others fitted to it.
fn at_an_end(random: &mut Random, place: Ranged, end: End) -> Vec<i64> {
    let mut bond = bond(random);
    if matches!(place, Ranged::Flow(_)) && bond.flows.is_empty() {
        bond.flows = vec![Flow { day: 1, amount: 1 }];
    }
    let mut numbers = bond.numbers();
    let value = end.of(place);
    match place {
        Ranged::Flow(number) => {
            let flow = random.below(bond.flows.len());
            numbers[VALUES + FLOW * flow + number] = value;
        }
        Ranged::Value(number) => {
            if matches!(end, End::Least | End::Most) {
                fit(&mut numbers, number, value);
            }
            numbers[number] = value;
        }
    }
    numbers
}

/// Fits the other values to one that shall stand at an end.
fn fit(numbers: &mut [i64], place: usize, value: i64) {
    match place {
        TENTATIVE => {
            numbers[STEP] = 1;
            numbers[MINIMA..S_MAX].fill(0);
            numbers[S_MAX] = *RATE.end();
        }
        MINIMA..=S_MAX => {
            numbers[STEP] = 1;
            numbers[TENTATIVE] = 0;
            numbers[MINIMA..place].fill(0);
            numbers[place..=S_MAX].fill(value);
        }
        STEP => {
            numbers[TENTATIVE] = 0;
            numbers[MINIMA..S_MAX].fill(0);
            numbers[S_MAX] = *RATE.end();
        }
        RH..=RH_3 if value == *HORIZON.start() => numbers[RH..place].fill(value),
        RH..=RH_3 => numbers[place + 1..=RH_3].fill(*HORIZON.end()),
        _ if (TERMS..TERMS + 9).contains(&place) => match (place - TERMS) % 3 {
            1 if value > 0 => numbers[place + 1] = value,
            2 if value < 0 => numbers[place - 1] = value,
            _ => {}
        },
        _ => {}
    }
}

/// A bond that rounds at or beside the place where it turns.
fn rounding(random: &mut Random, place: Place, beside: Beside) -> Bond {
    let mut bond = bond(random);
    match place {
        Place::Clean => {
            let net = Quotient {
                numerator: wide(bond.net),
                denominator: 10_000,
            };
            if let Some(face) = solved(random, net, beside, *BOND_MONEY.end()) {
                bond.face = face.max(1);
            }
        }
        Place::Carried => carried(random, &mut bond, beside),
        Place::Grown(reach, side) => grown(random, &mut bond, (reach, side), beside),
        Place::Limit(reach, side) => limit(random, &mut bond, (reach, side), beside),
    }
    bond
}

/// A whole number x up to `most` whose product with the factor stands so.
pub fn solved(random: &mut Random, factor: Quotient, beside: Beside, most: i64) -> Option<i64> {
    let Quotient {
        numerator,
        denominator,
    } = reduced(factor);
    let wanted = match beside {
        Beside::Whole => 0,
        Beside::Tie if denominator % 2 == 0 => denominator / 2,
        Beside::Below if denominator > 2 => (denominator - 1) / 2,
        Beside::PartAbove if denominator > 2 => 1,
        Beside::PartBelow if denominator > 2 => denominator - 1,
        _ => return None,
    };
    let least = (wanted * inverse(numerator, denominator)).rem_euclid(denominator);
    let room = (wide(most) - least) / denominator;
    if least > wide(most) {
        return None;
    }
    let more = wide(random.any_size(i64::try_from(room).unwrap_or(i64::MAX)));
    i64::try_from(least + more * denominator).ok()
}

/// The inverse of a number to a modulus that has no divisor with it.
fn inverse(number: i128, modulus: i128) -> i128 {
    let (mut old, mut new) = ((number.rem_euclid(modulus), 1), (modulus, 0));
    while new.0 != 0 {
        let times = old.0 / new.0;
        let next = (old.0 - times * new.0, old.1 - times * new.1);
        old = new;
        new = next;
    }
    old.1
}

/// Gives the bond a face value of which a unit tells, and then the accrued
/// interest that makes the gross evaluation.
fn set_gross(random: &mut Random, bond: &mut Bond, p: i64) {
    bond.face = random.between(FINE_FACE / 2, FINE_FACE);
    bond.net = random.pick(&[10_000, 30_000, 30_000]);
    bond.accrued = 0;
    if bond.gross() > p {
        bond.face = (p / 3).clamp(1, FINE_FACE);
    }
    bond.accrued = (p - bond.gross()).max(0);
}

fn carried(random: &mut Random, bond: &mut Bond, beside: Beside) {
    let term = random.pick(&bond.terms);
    let day = random.between(1, term.days.max(1));
    let grows = growth(bond.repo_rate, term.days - day);
    let most = random.pick(&[1_000, 100_000, 10_000_000]);
    if let Some(amount) = solved(random, grows, beside, most) {
        let p = bond.gross().max(2 * amount).min(*PRICE.end());
        set_gross(random, bond, p);
        bond.flows = vec![Flow { day, amount }];
    }
}

fn grown(random: &mut Random, bond: &mut Bond, reached: (Reach, Side), beside: Beside) {
    shown(random, bond, reached);
    let (reach, side) = reached;
    let term = random.below(3);
    let p = bond.gross();
    let s_1 = bond.rates()[0];
    let factor = reduced(bond.grown(s_1, &bond.terms[term], reach, side));
    let factor = Quotient {
        numerator: factor.numerator,
        denominator: factor.denominator * wide(p),
    };
    let most = random.pick(&[30_000, 100_000, 1_000_000, *PRICE.end()]);
    if let Some(p) = solved(random, factor, beside, most) {
        set_gross(random, bond, p.max(1));
        bond.flows.clear();
    }
}

fn limit(random: &mut Random, bond: &mut Bond, reached: (Reach, Side), beside: Beside) {
    shown(random, bond, reached);
    let (reach, side) = reached;
    let place = random.below(3);
    bond.terms[place].days = random.pick(&[1, 2, 10, 25, 30]);
    let term = bond.terms[place];
    bond.flows.clear();
    let grown = bond.grown(bond.rates()[0], &term, reach, side).half_up();
    let left = grown - wide(bond.accrued);
    let in_hundredths = Quotient {
        numerator: 10_000,
        denominator: wide(bond.face),
    };
    let most = i64::try_from(left).unwrap_or(0).max(0);
    if let Some(wanted) = solved(random, in_hundredths, beside, most) {
        bond.flows = vec![Flow {
            day: term.days,
            amount: most - wanted,
        }];
    }
}

/// Statics under which the limit of a reach is the narrower, and terms whose
/// growth has few parts.
fn shown(random: &mut Random, bond: &mut Bond, (reach, side): (Reach, Side)) {
    let statics = &mut bond.statics;
    let narrow = random.pick(&[0, 5, 10, 100, 400, 1_000]);
    let wide = random.pick(&[2_500, 5_000, 10_000]);
    let furthest = match reach {
        Reach::Furthest => narrow,
        Reach::Monitored | Reach::OffBook => wide,
    };
    (statics.pch_max, statics.pcl_max) = match side {
        Side::Upper => (furthest, wide),
        Side::Lower => (wide, furthest),
    };
    statics.monitoring = reach == Reach::Monitored;
    if reach == Reach::Monitored {
        statics.is_ewma = false;
        statics.minima[0] = statics.step * (random.between(0, statics.minima[1]) / statics.step);
        statics.x_pr = random.pick(&[100, 200, 500, 1_000]);
    }
    let days = random.pick(&[0, 5, 10, 20, 25, 30]);
    let rate = ROUND_RATE * random.between(-27, 27);
    if reach != Reach::Monitored {
        bond.repo_rate = rate;
    }
    bond.terms = [RepoTerm {
        days,
        rrcl: rate,
        rrch: rate,
    }; 3];
}

/// The ends of the n-th number of a bond's line.
pub fn bond_ends(word: usize) -> Ends {
    match word.checked_sub(VALUES) {
        None => ends(&crate::bond::VALUE_RANGES[word]),
        Some(number) => ends(&crate::bond::FLOW_RANGES[number % FLOW]),
    }
}
