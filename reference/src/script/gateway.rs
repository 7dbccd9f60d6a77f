//! Random gateway calls. Each has no past, so both sides of an edge are told.

use crate::gateway::perform;
use crate::random::Random;
use crate::statics::{Statics, STATICS};

use super::edges::{edge, neighbours, unsettled_count, Ends};
use super::{edges, share, spelling};

/// A script of so many lines. Scripts of odd seeds lack the last line's end.
pub fn script(seed: u64, lines: usize) -> Vec<u8> {
    let mut random = Random::new(seed);
    let mut text = Vec::new();
    let mut left = lines;
    while left > 0 {
        for line in turn(&mut random).into_iter().take(left) {
            text.extend(line);
            text.push(b'\n');
            left -= 1;
        }
    }
    if seed % 2 == 1 {
        text.pop();
    }
    text
}

/// A call: its word, its numbers with the statics last, and the ends of the
/// numbers before them.
struct Call {
    verb: &'static str,
    numbers: Vec<i64>,
    ends: &'static [Ends],
}

impl Call {
    fn ends_of(&self, word: usize) -> Ends {
        match word.checked_sub(self.ends.len()) {
            None => self.ends[word],
            Some(word) => edges::STATICS[word],
        }
    }

    /// A word of the call: its own values as often as its statics.
    fn any_word(&self, random: &mut Random) -> usize {
        if random.chance(50) {
            random.below(self.ends.len())
        } else {
            self.ends.len() + random.below(STATICS)
        }
    }
}

/// One call, or the two calls beside an edge.
fn turn(random: &mut Random) -> Vec<Vec<u8>> {
    let call = any_call(random);
    match random.below(100) {
        0..=44 => beside_an_edge(random, call),
        45..=69 => vec![unsettled(random, call)],
        70..=73 => vec![spelling::damaged(random, call.verb, &call.numbers)],
        74 => vec![spelling::blank(random)],
        _ => vec![spelling::spelled(random, call.verb, &call.numbers)],
    }
}

fn any_call(random: &mut Random) -> Call {
    let (statics, tentative) = rate_inputs(random);
    let (verb, mut numbers, ends): (_, _, &[Ends]) = match random.below(3) {
        0 => ("rate", rate(random, tentative), &edges::GATEWAY_RATE),
        1 => ("range", range(random, &statics), &edges::GATEWAY_RANGE),
        _ => ("band", band(random, &statics), &edges::GATEWAY_BAND),
    };
    numbers.extend(statics.numbers());
    Call {
        verb,
        numbers,
        ends,
    }
}

/// Statics, a few of them missing a relation, and a tentative rate.
fn rate_inputs(random: &mut Random) -> (Statics, i64) {
    match random.below(20) {
        0 | 1 => share::tiny(random),
        2 => {
            let statics = share::near_miss(random);
            (statics, share::tentative(random, &statics))
        }
        3 => {
            let statics = share::statics(random);
            (statics, statics.s_max + statics.step)
        }
        4 => {
            let statics = share::statics_of_step(random);
            (statics, share::top(random, &statics))
        }
        _ => {
            let statics = share::statics(random);
            (statics, share::tentative(random, &statics))
        }
    }
}

/// TENTATIVE M LEVEL, often with an exact requirement.
fn rate(random: &mut Random, tentative: i64) -> Vec<i64> {
    vec![
        tentative,
        random.pick(&[0, 0, 1, 3, 5, 6, 8, 9, 10]),
        random.between(1, 3),
    ]
}

/// P RATE SIDE, often with a tie.
fn range(random: &mut Random, statics: &Statics) -> Vec<i64> {
    vec![
        share::price(random, statics.grid()),
        any_rate(random),
        random.between(0, 1),
    ]
}

/// P S1 K REPO C SIDE.
fn band(random: &mut Random, statics: &Statics) -> Vec<i64> {
    vec![
        share::price(random, statics.grid()),
        any_rate(random),
        random.pick(&[0, 0, 1, 2, 10, 29, 30]),
        match random.below(3) {
            0 => random.pick(&[0, 0, 9_999, -9_999, 1_460, -730, 5_000, -5_000]),
            _ => random.between(-9_999, 9_999),
        },
        random.pick(&[0, 0, 0, 1, 2, 10, 49, 50]),
        random.between(0, 1),
    ]
}

fn any_rate(random: &mut Random) -> i64 {
    match random.below(4) {
        0 => random.pick(&[0, 1, 500, 800, 5_000, 9_999, 10_000]),
        1 => random.between(0, 10_000),
        2 => 25 * random.between(0, 400),
        _ => random.any_size(2_000),
    }
}

/// The two calls between which the answer changes with one number.
fn beside_an_edge(random: &mut Random, call: Call) -> Vec<Vec<u8>> {
    let word = call.any_word(random);
    let (low, high) = call.ends_of(word);
    let other = match random.below(4) {
        0 => edge(random, (low, high), call.numbers[word]).clamp(low - 1, high + 1),
        _ => random.between(low, high),
    };
    let with = |value: i64| {
        let mut numbers = call.numbers.clone();
        numbers[word] = value;
        numbers
    };
    let found = neighbours(call.numbers[word], other, |value| {
        perform(call.verb.as_bytes(), &with(value))
    });
    match found {
        Some((low, high)) => [low, high]
            .map(|value| spelling::spelled(random, call.verb, &with(value)))
            .to_vec(),
        None => vec![spelling::spelled(random, call.verb, &with(other))],
    }
}

/// The call with a few values at or past the ends of their ranges.
fn unsettled(random: &mut Random, mut call: Call) -> Vec<u8> {
    for _ in 0..unsettled_count(random) {
        let word = call.any_word(random);
        call.numbers[word] = edge(random, call.ends_of(word), call.numbers[word]);
    }
    spelling::spelled(random, call.verb, &call.numbers)
}
