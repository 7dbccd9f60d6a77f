//! Admissions that are refused 4 for one number, or for several.

use crate::count_admission::{self, NamedEdge, SeenAdmission};
use crate::field::{number_at, H, MIN1, MIN3, NUMBERS, P1, P2, PLACE_OF_TENTATIVE, RH1, RH2, SMAX};
use crate::protocol::admission;
use crate::random::Random;

use super::share;

/// Attempts at an edge.
const ATTEMPTS: usize = 20_000;

/// An admission for each edge of the number that is named.
pub fn every(random: &mut Random, id: i64) -> Vec<Vec<i64>> {
    let edges = count_admission::edges();
    let made = edges.iter().map(|edge| made(random, id, edge));
    made.flatten().collect()
}

/// The numbers of an admission that stands at an edge.
fn made(random: &mut Random, id: i64, (_, is_met): &NamedEdge) -> Option<Vec<i64>> {
    (0..ATTEMPTS).find_map(|_| {
        let numbers = attempt(random, id);
        let given = admission(&numbers)?;
        is_met(&SeenAdmission::of(&given)).then_some(numbers)
    })
}

/// An admission with one fault, or with two.
fn attempt(random: &mut Random, id: i64) -> Vec<i64> {
    let mut numbers = share::admission(random, id);
    let faults = random.pick(&[1, 1, 1, 2]);
    let relations = (0..faults).filter(|_| random.chance(40)).count();
    for _ in 0..relations {
        unrelate(random, &mut numbers);
    }
    for _ in relations..faults {
        past_an_end(random, &mut numbers);
    }
    numbers
}

fn past_an_end(random: &mut Random, numbers: &mut [i64]) {
    let any = 1 + random.below(NUMBERS);
    let place = random.pick(&[any, any, any, 1, NUMBERS]);
    let (_, range) = number_at(place);
    let (least, most) = (*range.start(), *range.end());
    numbers[place - 1] = match random.below(12) {
        0..=4 => least - 1,
        5..=9 => most + 1,
        10 => numbers[place - 1] + (1 << 32),
        _ => random.pick(&[i64::MIN, i64::MAX]),
    };
}

/// Breaks a relation, by the least there is where it can.
fn unrelate(random: &mut Random, numbers: &mut [i64]) {
    let step = numbers[H - 1];
    let aside = random.pick(&[-1, 1]);
    match random.below(8) {
        0 => numbers[P1 - 1] += aside,
        1 => numbers[P2 - 1] += aside,
        2 => numbers[PLACE_OF_TENTATIVE - 1] += aside,
        // Above its top, on a multiple or beside one.
        3 => numbers[PLACE_OF_TENTATIVE - 1] = (100_000 / step + 1) * step + step,
        4 => numbers[PLACE_OF_TENTATIVE - 1] = random.pick(&[100_998, 100_999]),
        5 => {
            let place = random.pick(&[RH1, RH2]);
            numbers[place] = numbers[place - 1] - 1;
        }
        6 => {
            let place = MIN1 + random.below(SMAX + 1 - MIN1);
            numbers[place - 1] += aside;
        }
        _ => {
            let place = MIN1 + random.below(MIN3 + 1 - MIN1);
            numbers[place - 1] = numbers[place] + step;
        }
    }
}
