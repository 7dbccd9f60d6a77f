//! Random securities that admission takes, many at the edges of its rules.

use crate::ewma::Model;
use crate::random::Random;
use crate::statics::{Statics, SHIFT, STATICS, STEP, X_PR};
use crate::units::{DAY_NUMBER, ONE_IN_TEN_THOUSANDTHS, PRICE, RATE, VOLATILITY};

/// The place of the tentative rate among an admission's numbers.
const TENTATIVE: usize = 5;

/// The paper's statics Z, with an evening's.
pub const Z: Statics = Statics {
    lot: 10,
    step: 100,
    multiplier: 300,
    a_up: 1_000,
    a_down: 500,
    wait: 5,
    horizons: [2, 5, 8],
    liq: 50,
    minima: [500, 700, 900],
    s_max: 4_000,
    x_pr: 200,
    shift: 25,
    pch_max: 2_000,
    pcl_max: 2_000,
    nearness: 1_000,
    near_seconds: 60,
    monitoring: true,
    is_ewma: true,
    evening_seconds: 120,
    autochange: true,
    evening_maximum: 2,
    use_external: false,
};

/// Horizons whose quotients by rh_1 are squares, so that requirements are
/// often exact.
const SQUARE_HORIZONS: [[i64; 3]; 9] = [
    [1, 4, 9],
    [1, 1, 16],
    [1, 9, 25],
    [2, 8, 18],
    [2, 5, 8],
    [3, 12, 27],
    [4, 9, 16],
    [4, 16, 25],
    [5, 5, 20],
];

/// Weights a under which sums of two squares are often exact squares.
const WEIGHTS: [i64; 8] = [0, 1, 500, 1_000, 3_600, 6_400, 9_999, 10_000];

/// Statics within their ranges.
pub fn statics(random: &mut Random) -> Statics {
    if random.chance(15) {
        return Statics {
            monitoring: random.chance(85),
            is_ewma: random.chance(85),
            autochange: random.chance(85),
            use_external: random.chance(50),
            ..Z
        };
    }
    let model = model(random);
    let step = model.step;
    let [first, second, third, s_max] = rate_ladder(random, step);
    Statics {
        lot: random.pick(&[1, 1, 2, 10, 10, 11, 99, 100]),
        step,
        multiplier: model.multiplier,
        a_up: model.a_up,
        a_down: model.a_down,
        wait: model.wait,
        horizons: horizons(random),
        liq: either(random, &[0, 50, 50, 499, 500], (0, 500)),
        minima: [first, second, third],
        s_max,
        x_pr: x_pr(random),
        shift: either(random, &[1, 2, 25, 50, 99, 100], (1, 100)),
        pch_max: band_maximum(random),
        pcl_max: band_maximum(random),
        nearness: either(random, &[0, 1, 1_000, 1_000, 4_999, 5_000], (0, 5_000)),
        near_seconds: near_seconds(random),
        monitoring: random.chance(85),
        is_ewma: random.chance(85),
        evening_seconds: near_seconds(random),
        autochange: random.chance(85),
        evening_maximum: either(random, &[0, 1, 1, 2, 9, 10], (0, 10)),
        use_external: random.chance(50),
    }
}

/// u, or u of the evening.
fn near_seconds(random: &mut Random) -> i64 {
    either(random, &[1, 2, 60, 60, 3_599, 3_600], (1, 300))
}

/// The statics of the volatility model.
pub fn model(random: &mut Random) -> Model {
    Model {
        step: match random.below(3) {
            0 => random.between(1, 1_000),
            _ => random.pick(&[1, 10, 25, 50, 100, 100, 250, 999, 1_000]),
        },
        multiplier: either(random, &[100, 101, 300, 300, 999, 1_000], (100, 1_000)),
        a_up: either(random, &WEIGHTS, (0, 10_000)),
        a_down: either(random, &WEIGHTS, (0, 10_000)),
        wait: either(random, &[1, 1, 2, 3, 5, 249, 250], (1, 10)),
    }
}

/// x_pr, or x_IR.
pub fn x_pr(random: &mut Random) -> i64 {
    either(random, &[50, 51, 100, 200, 999, 1_000], (50, 1_000))
}

/// Statics of which one relation or multiple fails by the least there is.
pub fn near_miss(random: &mut Random) -> Statics {
    let mut statics = statics(random);
    let step = statics.step;
    let beyond = *STEP.end() + 1;
    match random.below(10) {
        0 => {
            statics.step = beyond;
            statics.minima = [0, beyond, 2 * beyond];
            statics.s_max = random.between(2, 9) * beyond;
        }
        1 => statics.s_max = *RATE.end() / step * step + step,
        2 => statics.horizons[1] = statics.horizons[0] - 1,
        3 => statics.horizons[2] = statics.horizons[1] - 1,
        4 => statics.horizons = [6, random.between(6, 30), 30],
        5 => statics.minima[0] = statics.minima[1] + step,
        6 => statics.minima[1] = statics.minima[2] + step,
        7 => statics.minima[2] = statics.s_max + step,
        8 => statics.s_max += random.pick(&[1, -1]),
        _ => statics.minima[random.below(3)] += random.pick(&[1, -1]),
    }
    statics
}

/// Statics and a tentative rate so small that a requirement is nearly met.
pub fn tiny(random: &mut Random) -> (Statics, i64) {
    let statics = Statics {
        step: 1,
        minima: [0; 3],
        s_max: random.pick(&[20, 100, 10_000]),
        liq: random.between(0, 9),
        ..statics(random)
    };
    (statics, random.between(0, 9))
}

/// One of the listed values, or any from a range.
pub fn either(random: &mut Random, listed: &[i64], (low, high): (i64, i64)) -> i64 {
    if random.chance(65) {
        random.pick(listed)
    } else {
        random.between(low, high)
    }
}

/// S_1_min ≤ S_2_min ≤ S_3_min ≤ S_max, multiples of the step.
fn rate_ladder(random: &mut Random, step: i64) -> [i64; 4] {
    let top = 10_000 / step;
    let max = match random.below(20) {
        0 => 0,
        1..=5 => top,
        6..=12 => (4_000 / step).max(1),
        _ => random.between(1, top),
    };
    let floor = match random.below(8) {
        0 => 0,
        1 => max,
        _ => max / 3,
    };
    let mut rungs = [0; 3].map(|_: i64| random.between(0, floor) * step);
    rungs.sort_unstable();
    if random.chance(6) {
        rungs = [max * step; 3];
    }
    [rungs[0], rungs[1], rungs[2], max * step]
}

fn horizons(random: &mut Random) -> [i64; 3] {
    if random.chance(60) {
        return random.pick(&SQUARE_HORIZONS);
    }
    let first = random.between(1, 5);
    let second = random.between(first, 30);
    [first, second, random.pick(&[second, 30, (second + 30) / 2])]
}

/// Narrow maxima let repo bands cross.
fn band_maximum(random: &mut Random) -> i64 {
    match random.below(10) {
        0 => 0,
        1..=3 => random.between(0, 300),
        4 => 10_000,
        5 => random.between(0, 10_000),
        _ => 2_000,
    }
}

/// A price on the grid: round, of any size, or at an end.
pub fn price(random: &mut Random, grid: i64) -> i64 {
    let (low, high) = (*PRICE.start(), *PRICE.end());
    let price = match random.below(12) {
        0 => grid * random.between(1, 3),
        1 => high - grid * random.between(0, 2),
        2..=4 => random.any_size(high),
        5..=7 => random.between(1, 999) * 10_i64.pow(random.below(8) as u32),
        8 => grid * random.between(1, 400) * 25,
        _ => random.pick(&[1_000_000, 2_500_000, 300_000_000, 1_005_000]),
    };
    (price.clamp(low, high) / grid * grid).max(grid)
}

/// The numbers of an admission that is in range.
pub fn admission(random: &mut Random, id: i64) -> Vec<i64> {
    let statics = statics(random);
    admission_with(random, id, &statics)
}

/// The numbers of an admission that just fails a relation of its values.
pub fn missed_admission(random: &mut Random, id: i64) -> Vec<i64> {
    if random.chance(80) {
        let statics = near_miss(random);
        return admission_with(random, id, &statics);
    }
    let statics = statics(random);
    let mut numbers = admission_with(random, id, &statics);
    numbers[TENTATIVE] = match random.below(3) {
        0 => numbers[TENTATIVE] + random.pick(&[1, -1]),
        _ => statics.tentative_max() + statics.step,
    };
    numbers
}

/// Statics with a step of which the greatest tentative rate is 100,000, 2 above
/// it or 899 above it.
pub fn statics_of_step(random: &mut Random) -> Statics {
    let step = random.pick(&[1, 7, 999, 1_000]);
    let [first, second, third, s_max] = rate_ladder(random, step);
    Statics {
        step,
        minima: [first, second, third],
        s_max,
        ..statics(random)
    }
}

/// The greatest tentative rate, a step below it or a step past it.
pub fn top(random: &mut Random, statics: &Statics) -> i64 {
    statics.tentative_max() + statics.step * random.between(-1, 1)
}

fn admission_with(random: &mut Random, id: i64, statics: &Statics) -> Vec<i64> {
    let p1 = price(random, statics.grid());
    let p2 = match random.below(5) {
        0 => price(random, statics.grid()),
        1 => (p1 + statics.grid() * random.between(-3, 3)).clamp(statics.grid(), *PRICE.end()),
        _ => p1,
    };
    let tentative = tentative(random, statics);
    let s = volatility(random, statics, tentative);
    let day = match random.below(20) {
        0 => *DAY_NUMBER.end() - random.between(0, 2),
        1..=8 => 0,
        _ => random.between(0, 1_000),
    };
    numbers(&[id, day, p1, p2, s, tentative], statics)
}

/// An admission whose volatility never changes, so that its age climbs: the
/// tentative rate stays, or falls once after the longest wait.
pub fn quiet_admission(id: i64, falls: bool) -> Vec<i64> {
    let statics = Statics {
        a_up: 0,
        a_down: 0,
        wait: 250,
        ..Z
    };
    let s = if falls { 20_000 } else { 23_333 };
    numbers(&[id, 0, 1_000_000, 1_000_000, s, 700], &statics)
}

/// An admission whose limits reach the greatest a record may hold.
pub fn widest_admission(random: &mut Random, id: i64) -> Vec<i64> {
    let (p, rate) = (*PRICE.end(), *RATE.end());
    let statics = Statics {
        lot: random.pick(&[1, 10, 100]),
        minima: [rate; 3],
        s_max: rate,
        x_pr: *X_PR.start(),
        shift: *SHIFT.end(),
        pch_max: rate,
        pcl_max: rate,
        ..Z
    };
    numbers(&[id, 0, p, p, *VOLATILITY.end(), rate], &statics)
}

/// The numbers of an admission: `ID DAY P1 P2 S TENTATIVE` and the statics.
pub fn numbers(values: &[i64; 6], statics: &Statics) -> Vec<i64> {
    let mut numbers = Vec::with_capacity(values.len() + STATICS);
    numbers.extend(values);
    numbers.extend(statics.numbers());
    numbers
}

/// A tentative rate: 0, S_max, a step between or above, or any up to the
/// greatest.
pub fn tentative(random: &mut Random, statics: &Statics) -> i64 {
    let steps = statics.s_max / statics.step;
    let most = statics.tentative_max() / statics.step;
    let taken = match random.below(16) {
        0 | 1 => 0,
        2 => steps,
        3 => (steps + random.between(1, 3)).min(most),
        4 => random.between(steps, most),
        5 if random.chance(30) => most,
        _ => random.between(0, steps),
    };
    taken * statics.step
}

/// A volatility: any, at an end, or where t is just at tentative ± h.
pub fn volatility(random: &mut Random, statics: &Statics, tentative: i64) -> i64 {
    let t = tentative + statics.step * random.between(-2, 2);
    let s = match random.below(10) {
        0 => *VOLATILITY.end() - random.between(0, 1),
        1 => random.between(0, 1),
        2 => 9 * random.between(1, 9_000),
        3 | 4 => random.between(0, 60_000),
        _ => t.max(0) * ONE_IN_TEN_THOUSANDTHS as i64 / statics.multiplier + random.between(-1, 1),
    };
    s.clamp(*VOLATILITY.start(), *VOLATILITY.end())
}
