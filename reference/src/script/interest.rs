//! Sheets of the interest side, most of them in range, with their values on
//! both sides of every line of W-201.

use crate::ewma::{self, Model, Volatility};
use crate::interest::{
    Figures, Key, Pair, Sheet, Worked, MATURITIES_MAX, MATURITY, MATURITY_RANGES, VALUES,
    VALUE_RANGES,
};
use crate::random::Random;
use crate::units::{
    Range, AGE, INTEREST_MINIMUM, INTEREST_TENTATIVE, INTEREST_VOLATILITY, MATURITY_DAYS, REPO_RATE,
};

use super::edges::{ends, Ends};
use super::share;

/// The steps beside a line.
const BESIDE: [i64; 5] = [-1, 0, 0, 1, 1];

fn held(value: i64, range: &Range) -> i64 {
    value.clamp(*range.start(), *range.end())
}

/// A sheet in range and order.
pub fn sheet(random: &mut Random) -> Sheet {
    let model = share::model(random);
    let maturities = maturities(random);
    let calm = random.chance(80);
    let base = random.between(-1_500, 1_500);
    let key = |random: &mut Random, days| {
        let rate = if calm {
            base + random.between(-40, 40)
        } else {
            random.between(*REPO_RATE.start(), *REPO_RATE.end())
        };
        key(random, &model, days, rate, calm)
    };
    let mut sheet = Sheet {
        days_between: days_between(random),
        pair: pair(random, &maturities),
        model,
        liquidity: minimum(random),
        mm: minimum(random),
        sec: minimum(random),
        x_ir: share::x_pr(random),
        money: *REPO_RATE.end(),
        security: *REPO_RATE.start(),
        keys: maturities.iter().map(|days| key(random, *days)).collect(),
    };
    for index in 0..sheet.keys.len() {
        if random.chance(35) {
            beside_a_step(random, &mut sheet, index);
        }
    }
    settle(random, &mut sheet);
    sheet
}

/// The next evening of a sheet: each key maturity is given the last one's
/// figures, and its rates move on by a day.
pub fn next_evening(random: &mut Random, sheet: &Sheet, worked: &Worked) -> Sheet {
    let mut next = sheet.clone();
    next.days_between = days_between(random);
    if random.chance(40) {
        let maturities: Vec<i64> = sheet.keys.iter().map(|key| key.days).collect();
        next.pair = pair(random, &maturities);
    }
    for (key, figures) in next.keys.iter_mut().zip(&worked.figures) {
        let rate = next_rate(random, key, figures);
        *key = Key {
            rate,
            rate_1: key.rate,
            rate_2: key.rate_1,
            index: index(random, rate),
            before: figures.after,
            ..*key
        };
    }
    settle(random, &mut next);
    next
}

fn days_between(random: &mut Random) -> i64 {
    random.pick(&[0, 0, 0, 0, 1, 1, 1, 2, 2, 30])
}

/// Ascending maturities, many two days apart, where a middle may be a tie.
fn maturities(random: &mut Random) -> Vec<i64> {
    let count = random.pick(&[1, 1, 2, 2, 2, 3, 3, 4, 6, 8]);
    let first = match random.below(6) {
        0 => random.between(0, 300),
        _ => random.pick(&[0, 0, 0, 1, 2, 7]),
    };
    let mut maturities = vec![first];
    while maturities.len() < count {
        let gap = match random.below(4) {
            0 => random.between(1, 50),
            _ => random.pick(&[1, 2, 2, 2, 3, 4, 6, 10]),
        };
        let next = maturities[maturities.len() - 1] + gap;
        if !MATURITY_DAYS.contains(&next) {
            break;
        }
        maturities.push(next);
    }
    if random.chance(10) && maturities.len() > 1 {
        maturities.pop();
        maturities.push(*MATURITY_DAYS.end());
    }
    maturities
}

/// Two terms in order: often Y0/Y1, else beside, at and between maturities.
fn pair(random: &mut Random, maturities: &[i64]) -> Pair {
    if random.chance(35) {
        return Pair::HELD;
    }
    let (one, other) = (term(random, maturities), term(random, maturities));
    let (ym, yn) = (one.min(other), one.max(other));
    match (ym, yn) {
        _ if ym < yn => Pair { ym, yn },
        (0, _) => Pair {
            ym,
            yn: random.pick(&[1, 2]),
        },
        _ => Pair { ym: ym - 1, yn },
    }
}

fn term(random: &mut Random, maturities: &[i64]) -> i64 {
    let index = random.below(maturities.len());
    let days = maturities[index];
    let term = match random.below(10) {
        0 => random.pick(&[0, 1, 365]),
        1 => random.between(0, 365),
        2 | 3 => days + random.pick(&[-1, 1]),
        4 | 5 => days,
        _ => maturities
            .get(index + 1)
            .map_or(days, |next| (days + next) / 2),
    };
    held(term, &MATURITY_DAYS)
}

/// MMΔ, SECΔ or liquidity.
fn minimum(random: &mut Random) -> i64 {
    match random.below(8) {
        0 | 1 => 0,
        2 => random.between(0, *INTEREST_MINIMUM.end()),
        _ => random.any_size(500),
    }
}

fn index(random: &mut Random, rate: i64) -> i64 {
    held(rate + random.between(-300, 300), &REPO_RATE)
}

/// A key maturity whose change stands beside the old volatility or the old
/// tentative rate.
fn key(random: &mut Random, model: &Model, days: i64, rate: i64, calm: bool) -> Key {
    let before = before(random, model, calm);
    let change = match random.below(8) {
        0 => 0,
        1 | 2 => before.s + random.pick(&BESIDE),
        3..=5 => before.tentative + random.pick(&BESIDE),
        _ => random.any_size(if calm {
            300
        } else {
            *INTEREST_VOLATILITY.end()
        }),
    };
    let far = if random.chance(50) {
        rate + change
    } else {
        rate - change
    };
    let far = if REPO_RATE.contains(&far) {
        far
    } else {
        held(2 * rate - far, &REPO_RATE)
    };
    let near = random.between(rate.min(far), rate.max(far));
    let other = random.pick(&[rate, far, near, held(2 * rate - near, &REPO_RATE)]);
    let (rate_1, rate_2) = random.pick(&[(far, other), (other, far)]);
    Key {
        days,
        rate,
        rate_1,
        rate_2,
        index: index(random, rate),
        before,
    }
}

/// The figures before: a tentative rate beside the volatility's own, or any.
fn before(random: &mut Random, model: &Model, calm: bool) -> Volatility {
    let s = match random.below(6) {
        _ if !calm => random.between(0, *INTEREST_VOLATILITY.end()),
        0 => random.between(0, 2),
        _ => random.any_size(300),
    };
    let t = ewma::target(model, s, 1);
    let tentative = match random.below(6) {
        0 => random.any_size(1_000),
        1 if !calm => random.between(0, *INTEREST_TENTATIVE.end()),
        _ => t + model.step * random.between(-1, 1) + random.pick(&[0, 0, 1, -1]),
    };
    Volatility {
        s,
        tentative: held(tentative, &INTEREST_TENTATIVE),
        age: age(random, model),
    }
}

/// An age: one short of the wait, at it, or any.
fn age(random: &mut Random, model: &Model) -> i64 {
    let age = match random.below(8) {
        0 => 0,
        1 => *AGE.end() - random.between(0, 1),
        2 => random.between(0, *AGE.end()),
        3 | 4 => model.wait - 2,
        _ => model.wait - 1,
    };
    held(age, &AGE)
}

/// A rate whose change from the two before it stands beside the volatility or
/// the tentative rate.
fn next_rate(random: &mut Random, key: &Key, figures: &Figures) -> i64 {
    let change = match random.below(6) {
        0 => figures.after.s + random.pick(&BESIDE),
        1 | 2 => figures.after.tentative + random.pick(&BESIDE),
        _ => random.any_size(60),
    };
    let (low, high) = (key.rate.min(key.rate_1), key.rate.max(key.rate_1));
    let (up, down) = (low + change, high - change);
    let rate = random.pick(&[up, down]);
    if REPO_RATE.contains(&rate) {
        rate
    } else {
        held(up + down - rate, &REPO_RATE)
    }
}

/// Puts a key maturity's tentative rate where t is a step from it, or one less,
/// and a falling one's age beside the wait.
fn beside_a_step(random: &mut Random, sheet: &mut Sheet, index: usize) {
    let model = sheet.model;
    let figures = sheet.worked().figures[index];
    let t = ewma::target(&model, figures.after.s, 1);
    let tentative = if random.chance(50) {
        t - model.step + random.pick(&[0, 0, 1, 1, -1])
    } else {
        t + model.step + random.pick(&[0, 0, 1, -1, 5 * model.step])
    };
    let before = &mut sheet.keys[index].before;
    if INTEREST_TENTATIVE.contains(&tentative) {
        before.tentative = tentative;
    }
    if random.chance(70) {
        before.age = held(model.wait - random.pick(&[1, 2]), &AGE);
    }
}

/// Puts the minima beside tentative + liquidity, and the money and security
/// rates beside the limits that they would hold.
fn settle(random: &mut Random, sheet: &mut Sheet) {
    let figures = sheet.worked().figures;
    let needed = |figures: &Figures| figures.after.tentative + sheet.liquidity;
    let mm = needed(&random.pick(&figures)) + random.pick(&BESIDE);
    let needed: Vec<i64> = figures.iter().map(needed).collect();
    if random.chance(40) && INTEREST_MINIMUM.contains(&mm) {
        sheet.mm = mm;
    }
    for (key, needed) in sheet.keys.iter_mut().zip(needed) {
        let spread = match random.below(4) {
            0 => needed + random.pick(&BESIDE),
            1 => needed + random.any_size(500),
            2 => -random.between(0, 2),
            _ => continue,
        };
        let index = key.rate - sheet.sec + spread;
        if REPO_RATE.contains(&index) {
            key.index = index;
        }
    }
    settle_held(random, sheet);
}

fn settle_held(random: &mut Random, sheet: &mut Sheet) {
    let (lower, upper) = sheet.limits(&sheet.worked().figures);
    let beside = |random: &mut Random, limit: i128| {
        let limit = i64::try_from(limit).unwrap_or_default();
        held(limit + random.pick(&[-1, 0, 1]), &REPO_RATE)
    };
    let (lower, upper) = (lower.half_up(), upper.half_up());
    sheet.money = match random.below(10) {
        0 | 1 => *REPO_RATE.end(),
        2 => beside(random, lower),
        3 => random.between(-2_000, 2_000),
        _ => beside(random, upper),
    };
    sheet.security = match random.below(10) {
        0 | 1 => *REPO_RATE.start(),
        2 => beside(random, upper),
        3 => random.between(-2_000, 2_000),
        _ => beside(random, lower),
    };
}

/// A quiet sheet of one maturity, its band the rate and the minima alone, that
/// has a limit at or just past the end of a repo rate, or touches or crosses.
pub fn at_an_end(random: &mut Random) -> Sheet {
    let end = *REPO_RATE.end();
    let past = random.between(0, 1);
    let rate = random.between(1, end);
    let mut sheet = Sheet {
        days_between: 0,
        pair: Pair {
            ym: 0,
            yn: random.between(2, 365),
        },
        model: Model {
            step: 1,
            ..share::model(random)
        },
        liquidity: 0,
        mm: 0,
        sec: 0,
        x_ir: 100,
        money: rate,
        security: rate,
        keys: vec![quiet(rate)],
    };
    match random.below(3) {
        0 => sheet.mm = end + past - rate,
        1 => {
            sheet.keys = vec![quiet(-rate)];
            sheet.sec = end + past - rate;
        }
        _ => {
            sheet.pair = Pair::HELD;
            (sheet.mm, sheet.sec) = (1, 1);
            sheet.money = rate - past;
        }
    }
    sheet
}

/// A key maturity without volatility, whose rate stays.
fn quiet(rate: i64) -> Key {
    Key {
        days: 1,
        rate,
        rate_1: rate,
        rate_2: rate,
        index: rate,
        before: Volatility {
            s: 0,
            tentative: 0,
            age: 0,
        },
    }
}

/// Maturities or terms that do not ascend.
pub fn misorder(random: &mut Random, sheet: &mut Sheet) {
    let keys = sheet.keys.len();
    let Pair { ym, yn } = sheet.pair;
    match random.below(5) {
        0 => sheet.pair = Pair { ym: yn, yn },
        1 => sheet.pair = Pair { ym: yn, yn: ym },
        2 if keys > 1 => sheet.keys.swap(keys - 2, keys - 1),
        3 if keys > 1 => sheet.keys[keys - 1].days = sheet.keys[keys - 2].days - 1,
        _ if keys > 1 => {
            let index = 1 + random.below(keys - 1);
            sheet.keys[index].days = sheet.keys[index - 1].days;
        }
        _ => sheet.pair = Pair { ym: ym + 1, yn: ym },
    }
    for key in &mut sheet.keys {
        key.days = held(key.days, &MATURITY_DAYS);
    }
}

/// The numbers of a sheet with so many maturities as are refused, or beside
/// them.
pub fn lengthen(random: &mut Random, sheet: &Sheet) -> Vec<i64> {
    let mut numbers = sheet.numbers();
    let given = numbers.len();
    let length = VALUES
        + match random.below(6) {
            0 => 0,
            1 => MATURITY,
            2 => MATURITIES_MAX,
            3 => MATURITIES_MAX + MATURITY,
            4 => given - VALUES + random.pick(&[1, 2, 4, 7]),
            _ => random.pick(&[1, 4, 7, 9, 12, 56, 63, 65, 71, 80, 128]),
        };
    numbers.truncate(length);
    while numbers.len() < length {
        numbers.push(numbers[numbers.len() - MATURITY]);
        let place = numbers.len() - 1;
        let is_days = (place - VALUES) % MATURITY == 0;
        if is_days {
            numbers[place] = held(numbers[place] + 1, &MATURITY_DAYS);
        }
    }
    numbers
}

/// The ends of the n-th number of an interest line.
pub fn sheet_ends(word: usize) -> Ends {
    match word.checked_sub(VALUES) {
        None => ends(&VALUE_RANGES[word]),
        Some(figure) => ends(&MATURITY_RANGES[figure % MATURITY]),
    }
}
