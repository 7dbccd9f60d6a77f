//! Good messages, and messages that are good but for what they are made for.

use std::ops::Range;

use crate::message::{Field, Kind, Message};
use crate::random::Random;
use crate::statics::{HORIZON, HORIZON_1, STEP};
use crate::units::RATE;

/// Places among the fields of kind 1: h, the horizons, and the minima with S_max.
const STEP_PLACE: usize = 2;
const HORIZONS: Range<usize> = 7..10;
const RATES: Range<usize> = 11..15;

/// A value of a field: at an end, beside one, small, or any.
fn value(random: &mut Random, field: &Field) -> i64 {
    let (least, most) = (*field.range.start(), *field.range.end());
    match random.below(10) {
        0 => least,
        1 => most,
        2 => (least + 1).min(most),
        3 => (most - 1).max(least),
        4 | 5 => random.any_size(most).max(least),
        _ => random.between(least, most),
    }
}

/// A good message of a kind.
pub fn message(random: &mut Random, kind: Kind) -> Message {
    let id = value(random, &kind.fields()[0]);
    message_with(random, kind, 0, id)
}

/// A good message of any kind that a reader takes wherever it stands.
pub fn any_message(random: &mut Random) -> Message {
    let kind = random.pick(&Kind::OF_SECURITIES);
    message(random, kind)
}

/// A message with a value at a place, and good but for that.
pub fn message_with(random: &mut Random, kind: Kind, place: usize, given: i64) -> Message {
    let fields = kind.fields().iter();
    let mut values: Vec<i64> = fields.map(|field| value(random, field)).collect();
    values[place] = given;
    if kind == Kind::Statics {
        if RATES.contains(&place) {
            values[STEP_PLACE] = divisor(random, given);
        }
        order(&mut values, HORIZONS, place, 1);
        let step = values[STEP_PLACE].max(1);
        order(&mut values, RATES, place, step);
    }
    Message::new(kind, values)
}

/// A step of which a rate is a multiple.
fn divisor(random: &mut Random, rate: i64) -> i64 {
    let divisors: Vec<i64> = STEP.filter(|step| rate % step == 0).collect();
    random.pick(&divisors)
}

/// Puts the values of some places in order around the given one, as far as their
/// ranges let them, as multiples of a step.
fn order(values: &mut [i64], places: Range<usize>, given: usize, step: i64) {
    let fields = Kind::Statics.fields();
    let is_among = places.contains(&given);
    let others: Vec<usize> = places.filter(|place| *place != given).collect();
    let mut sorted: Vec<i64> = others.iter().map(|place| values[*place]).collect();
    sorted.sort_unstable();
    for (place, value) in others.into_iter().zip(sorted) {
        let range = &fields[place].range;
        let ordered = match (is_among, place < given) {
            (false, _) => value,
            (true, true) => value.min(values[given]),
            (true, false) => value.max(values[given]),
        };
        let held = ordered.clamp(*range.start(), *range.end());
        values[place] = held - held % step;
    }
}

/// A message of kind 1 whose horizons, and whose rates, are all one.
pub fn level(random: &mut Random) -> Message {
    let mut values = message(random, Kind::Statics).fields().to_vec();
    let horizon = random.between(*HORIZON_1.start(), *HORIZON_1.end());
    let step = values[STEP_PLACE];
    let rate = step * random.between(0, RATE.end() / step);
    values[HORIZONS].fill(horizon);
    values[RATES].fill(rate);
    Message::new(Kind::Statics, values)
}

/// Which two neighbours of kind 1 are out of order, or which rate is no multiple.
#[derive(Clone, Copy)]
pub enum Broken {
    /// A horizon above the next by a day.
    Horizons(usize),
    /// A rate above the next by a step.
    Rates(usize),
    /// A rate off its multiple by so much.
    Multiple(usize, i64),
}

/// Every order and every multiple.
pub const BROKEN: [Broken; 13] = [
    Broken::Horizons(0),
    Broken::Horizons(1),
    Broken::Rates(0),
    Broken::Rates(1),
    Broken::Rates(2),
    Broken::Multiple(0, 1),
    Broken::Multiple(1, 1),
    Broken::Multiple(2, 1),
    Broken::Multiple(3, 1),
    Broken::Multiple(0, -1),
    Broken::Multiple(1, -1),
    Broken::Multiple(2, -1),
    Broken::Multiple(3, -1),
];

/// A message of kind 1 with one order or one multiple broken.
pub fn broken(random: &mut Random, broken: Broken) -> Message {
    let mut values = message(random, Kind::Statics).fields().to_vec();
    match broken {
        Broken::Horizons(pair) => {
            let most = if pair == 0 { HORIZON_1 } else { HORIZON };
            let next = random.between(1, most.end() - 1);
            let mut horizons = crossed(random, 3, pair, next, *HORIZON.end());
            horizons[0] = horizons[0].min(*HORIZON_1.end());
            values[HORIZONS].copy_from_slice(&horizons);
        }
        Broken::Rates(pair) => {
            let step = random.between(1, *STEP.end());
            let steps = RATE.end() / step;
            let next = random.between(0, steps - 1);
            let rates = crossed(random, 4, pair, next, steps);
            values[STEP_PLACE] = step;
            values[RATES].copy_from_slice(&rates_of(&rates, step));
        }
        Broken::Multiple(place, off) => {
            let step = random.between(2, *STEP.end());
            let first = random.between(1, RATE.end() / step - 4);
            let steps: Vec<i64> = (first..first + 4).collect();
            values[STEP_PLACE] = step;
            values[RATES].copy_from_slice(&rates_of(&steps, step));
            values[RATES.start + place] += off;
        }
    }
    Message::new(Kind::Statics, values)
}

/// Numbers in order but for one that is above the next by 1: `next` follows it.
fn crossed(random: &mut Random, count: usize, pair: usize, next: i64, most: i64) -> Vec<i64> {
    let least = next.min(1);
    let mut before: Vec<i64> = (0..pair).map(|_| random.between(least, next)).collect();
    let behind = count - pair - 2;
    let mut after: Vec<i64> = (0..behind).map(|_| random.between(next, most)).collect();
    before.sort_unstable();
    after.sort_unstable();
    [&before[..], &[next + 1, next], &after[..]].concat()
}

/// Numbers of steps as rates.
fn rates_of(steps: &[i64], step: i64) -> Vec<i64> {
    steps.iter().map(|count| count * step).collect()
}
