//! Random securities and days for the tuned version, crowded at the edges of the ranges.

use reference::outside::Outside;
use reference::random::Random;
use reference::record::{Record, Session, Standing};
use reference::security::{admitted, Admission, Day, RepoTerm};
use reference::statics::{Statics, STATICS};

/// An end of a range, or a number of any size in it.
fn edge_or_any(random: &mut Random, low: i64, high: i64) -> i64 {
    match random.below(6) {
        0 => low,
        1 => high,
        2 => low + random.any_size(high - low),
        _ => random.between(low, high),
    }
}

fn flag(random: &mut Random, percent: usize) -> i64 {
    i64::from(random.chance(percent))
}

/// The statics of a security, in the order of an admission.
fn statics(random: &mut Random) -> [i64; STATICS] {
    let lot = random.pick(&[1, 1, 2, 10, 11, 100]);
    let step = random.pick(&[1, 5, 25, 100, 333, 1_000]);
    let steps_max = edge_or_any(random, 0, 10_000 / step);
    let mut minima = [0, 1, 2].map(|_| random.any_size(steps_max) * step);
    minima.sort_unstable();
    let mut days = [0, 1].map(|_| edge_or_any(random, 1, 30));
    days.sort_unstable();
    let first = random.between(1, days[0].min(5));
    [
        lot,
        step,
        edge_or_any(random, 100, 1_000),
        edge_or_any(random, 0, 10_000),
        edge_or_any(random, 0, 10_000),
        random.pick(&[1, 2, 5, 250]),
        first,
        days[0],
        days[1],
        edge_or_any(random, 0, 500),
        minima[0],
        minima[1],
        minima[2],
        steps_max * step,
        edge_or_any(random, 50, 1_000),
        edge_or_any(random, 1, 100),
        edge_or_any(random, 0, 10_000),
        edge_or_any(random, 0, 10_000),
        edge_or_any(random, 0, 5_000),
        edge_or_any(random, 1, 3_600),
        flag(random, 80),
        flag(random, 80),
        edge_or_any(random, 1, 3_600),
        flag(random, 50),
        edge_or_any(random, 0, 10),
        flag(random, 50),
    ]
}

/// A security as it is admitted.
pub fn security(random: &mut Random) -> Record {
    let statics = statics(random);
    let grid = [100, 10, 1][usize::from(statics[0] > 1) + usize::from(statics[0] > 10)];
    let p1 = (1 + random.any_size(10_000_000_000 / grid - 1)) * grid;
    let p2 = (near(random, p1) / grid).max(1) * grid;
    let tops = (100_000 + statics[1] - 1) / statics[1];
    admitted(&Admission {
        id: edge_or_any(random, 1, 1_000_000_000),
        day: edge_or_any(random, 0, 999_980),
        p1,
        p2,
        s: random.any_size(1_000_000),
        tentative: random.any_size(tops) * statics[1],
        statics,
    })
    .expect("the admission is in range")
}

/// A price beside a price: mostly by little.
pub fn near(random: &mut Random, price: i64) -> i64 {
    let part = random.pick(&[0, 100, 1_000, 20_000, 500_000]);
    let apart = random.between(-part, part) as i128 * price as i128 / 1_000_000;
    (price + apart as i64).clamp(0, 10_000_000_000)
}

/// T, a central rate and a repo rate: in roubles or in a currency, today or later.
fn currency(random: &mut Random) -> [i64; 3] {
    let days = random.pick(&[0, 0, 1, 2, 30]);
    let central = match random.below(5) {
        0 => edge_or_any(random, 1, 10_000_000),
        1 => random.pick(&[9_999, 10_001, 5_000_000, 5_000_001]),
        2 => 125_000,
        _ => 10_000,
    };
    [days, central, edge_or_any(random, -9_999, 9_999)]
}

/// The same where each odd price ties at place (a): at 5,000 today it is half as many roubles, and so it is at
/// 5,000 + k a day later at k·730 basis points, since 3,650,000 + 730·k is 730·(5,000 + k).
fn tying_currency(random: &mut Random) -> [i64; 3] {
    let k = random.between(-13, 13) * flag(random, 70);
    [i64::from(k != 0), 5_000 + k, 730 * k]
}

/// A row that says about what the price was.
fn row(random: &mut Random, price: i64) -> [i64; 7] {
    let [days, central, repo] = if random.chance(15) {
        tying_currency(random)
    } else {
        currency(random)
    };
    let growth = 3_650_000 + days * repo;
    let given = price as i128 * 10_000 * growth as i128 / (central as i128 * 3_650_000);
    let given = given.clamp(1, 10_000_000_000) as i64;
    let close = near(random, given);
    let bid = near(random, given);
    let ask = bid.saturating_add(random.any_size(1 + bid / 50));
    let volume_most = random.pick(&[1_000, 1_000, 100_000_000]);
    let volume = random.any_size(volume_most);
    let mut row = [
        days,
        central,
        repo,
        close,
        bid,
        ask.min(10_000_000_000),
        volume,
    ];
    for price in &mut row[3..6] {
        *price *= flag(random, 92);
    }
    row[6] *= i64::from(row[3] != 0);
    row
}

/// What may be wrong with a row: crossed, or a number past an end of its range.
fn spoil(random: &mut Random, row: &mut [i64; 7]) {
    match random.below(4) {
        0 => row[4] = row[5].saturating_add(1),
        1 => row[3] = 0,
        2 => *row = [0, 10_000, 0, 1, 1, 1, 100_000_000].map(|most| most * random.between(0, 1)),
        _ => {
            let (least, most) = random.pick(&[(0, 30), (1, 10_000_000), (-9_999, 9_999)]);
            let place = random.below(7);
            row[place] = random.pick(&[least - 1, most + 1, i64::MIN, i64::MAX, 10_000_000_001]);
        }
    }
}

pub fn rows(random: &mut Random, price: i64) -> Vec<i64> {
    let count = random.pick(&[0, 1, 2, 3, 5, 16]);
    let is_spoiled = random.chance(8);
    let mut rows = Vec::new();
    for _ in 0..count {
        let mut row = row(random, price);
        if is_spoiled && random.chance(50) {
            spoil(random, &mut row);
        }
        rows.extend_from_slice(&row);
    }
    if random.chance(1) {
        rows.extend((0..random.pick(&[1, 6, 7, 119])).map(|_| 1));
    }
    rows
}

/// A term in range, but for one in a hundred.
fn term(random: &mut Random) -> RepoTerm {
    let rrcl = edge_or_any(random, -9_999, 9_999);
    let mut term = RepoTerm {
        days: edge_or_any(random, 0, 30),
        rrcl,
        rrch: edge_or_any(random, rrcl, 9_999),
    };
    if random.chance(1) {
        term.rrch = random.pick(&[rrcl - 1, 10_000]);
    }
    if random.chance(1) {
        term.days = random.pick(&[-1, 31]);
    }
    term
}

/// A day after a record's last one, or on it.
pub fn day<'a>(random: &mut Random, last_day: i64, rows: &'a [i64]) -> Day<'a> {
    let mut day = Day {
        number: last_day + random.pick(&[1, 1, 1, 1, 1, 1, 1, 1, 2, 0]),
        days_between: random.pick(&[0, 0, 1, 1, 2, 30]),
        days_closed: edge_or_any(random, 0, 10),
        terms: [0, 1, 2].map(|_| term(random)),
        rows,
    };
    match random.below(100) {
        0 => day.number = random.pick(&[-1, 1_000_001]),
        1 => day.days_between = random.pick(&[-1, 31]),
        2 => day.days_closed = random.pick(&[-1, 11]),
        _ => (),
    }
    day
}

/// What calls between two evaluations may leave: near seconds, moves, an evening, outside prices.
pub fn trouble(random: &mut Random, record: &mut Record) {
    let seconds = random.between(0, 86_399);
    record.terms[random.below(3)].near_top = Some(seconds);
    record.terms[random.below(3)].near_bottom = Some(seconds);
    record.moves_upper = edge_or_any(random, 0, 50);
    record.moves_lower = edge_or_any(random, 0, 50);
    record.last_second = seconds;
    record.session = Session::Evening(random.between(0, 10));
    record.outside = Outside {
        bid: near(random, record.p1) * flag(random, 70),
        ask: near(random, record.p1) * flag(random, 70),
    };
}

/// Every number of the statics.
fn statics_numbers(statics: &mut Statics) -> Vec<&mut i64> {
    let Statics {
        lot,
        step,
        multiplier,
        a_up,
        a_down,
        wait,
        horizons,
        liq,
        minima,
        s_max,
        x_pr,
        shift,
        pch_max,
        pcl_max,
        nearness,
        near_seconds,
        monitoring: _,
        is_ewma: _,
        evening_seconds,
        autochange: _,
        evening_maximum,
        use_external: _,
    } = statics;
    let model = [lot, step, multiplier, a_up, a_down, wait, liq, s_max];
    let bands = [x_pr, shift, pch_max, pcl_max, nearness];
    let seconds = [near_seconds, evening_seconds, evening_maximum];
    let mut numbers: Vec<&mut i64> = horizons.iter_mut().chain(minima).collect();
    numbers.extend(model);
    numbers.extend(bands);
    numbers.extend(seconds);
    numbers
}

/// Every number of a record.
fn numbers(record: &mut Record) -> Vec<&mut i64> {
    let Record {
        id,
        statics,
        standing: Standing::Admitted(day) | Standing::Live(day),
        p1,
        p2,
        s,
        tentative,
        age,
        rates,
        upper,
        lower,
        terms,
        moves_upper,
        moves_lower,
        last_second,
        session,
        outside,
    } = record;
    let mut numbers = statics_numbers(statics);
    numbers.extend([id, day, p1, p2, s, tentative, age]);
    numbers.extend([moves_upper, moves_lower, last_second]);
    numbers.extend([&mut outside.bid, &mut outside.ask]);
    numbers.extend(rates.iter_mut().chain(upper).chain(lower));
    for term in terms {
        numbers.extend([&mut term.days, &mut term.rrcl, &mut term.rrch]);
        numbers.extend([&mut term.lower, &mut term.upper]);
        numbers.extend(term.near_top.iter_mut().chain(&mut term.near_bottom));
    }
    if let Session::Evening(moves) = session {
        numbers.push(moves);
    }
    numbers
}

/// One past an end of each range of a record's numbers.
const PAST_ENDS: [i64; 20] = [
    -10_000,
    -1,
    0,
    6,
    11,
    31,
    49,
    51,
    99,
    101,
    251,
    501,
    1_001,
    3_601,
    5_001,
    10_001,
    86_400,
    1_000_001,
    10_000_000_100,
    2_020_000_000_100,
];

/// Changes one number: past an end, or a little, off the grid or the multiples of h perhaps.
pub fn damage(random: &mut Random, record: &mut Record) {
    let step = record.statics.step;
    let mut numbers = numbers(record);
    let place = random.below(numbers.len());
    let number: &mut i64 = numbers[place];
    *number = match random.below(4) {
        0 => number.wrapping_add(random.pick(&[1, -1, 10, 50, i64::MIN])),
        // The tentative rate's top, or one step past it where h divides 100,000.
        1 => 100_000 / step * step + step,
        _ => random.pick(&PAST_ENDS),
    };
}
