//! Days at which two reasons hold at once, or more than one thing is at fault
//! (W-207).

use crate::count_why::{self, NamedEdge, SeenWhy};
use crate::evaluation::ROW;
use crate::kept::Kept;
use crate::protocol::Asked;
use crate::random::Random;
use crate::rates::least_covering;
use crate::record::Record;
use crate::statics::Statics;
use crate::units::{
    DAYS_AHEAD, DAYS_BETWEEN, DAYS_CLOSED, ONE_IN_TEN_THOUSANDTHS, RATE, REPO_RATE, ROW_PRICE,
    ROW_VOLUME,
};
use crate::words::Word;

use super::{day, edges, share};

/// The rouble's central rate, and one in ten-thousandths.
const ROUBLE: i64 = ONE_IN_TEN_THOUSANDTHS as i64;
/// The most rows of a day.
const ROWS: usize = 16;
/// The first place of the terms.
const TERMS: usize = 4;

/// Every edge of an evaluation's reasons, with how often it was met or had a
/// turn. The edge that was met least has the next turn, so that a rare one is
/// met on every seed.
pub struct Aims {
    edges: Vec<(NamedEdge, usize)>,
}

impl Aims {
    pub fn new() -> Aims {
        let edges = count_why::edges();
        Aims {
            edges: edges.into_iter().map(|edge| (edge, 0)).collect(),
        }
    }

    /// Meets every edge at which an evaluation stands.
    pub fn look(&mut self, asked: &Asked, before: Option<&Record>) {
        let seen = SeenWhy::of(asked, before);
        for ((_, is_met), times) in &mut self.edges {
            *times += usize::from(is_met(&seen));
        }
    }

    /// The place of the edge that is next. Its turn counts too: one that no
    /// record can stand at does not take every turn.
    pub fn next(&mut self) -> usize {
        let places = 0..self.edges.len();
        let least = places.min_by_key(|place| self.edges[*place].1);
        let place = least.expect("there are edges");
        self.edges[place].1 += 1;
        place
    }

    pub fn edge(&self, place: usize) -> &NamedEdge {
        &self.edges[place].0
    }
}

/// The numbers of a day of a record that stands at an edge; none where this
/// attempt does not. The record may be one that the table does not have.
pub fn attempt(
    random: &mut Random,
    record: &Record,
    is_admitted: bool,
    edge: &NamedEdge,
) -> Option<Vec<i64>> {
    let numbers = match random.below(7) {
        0 | 1 => meeting(random, record),
        2 | 3 => faulty(random, record),
        4 => crossing(random, record),
        5 => moving(random, record),
        _ => day::numbers(random, record),
    };
    let words: Vec<Word> = numbers.iter().copied().map(Word::from).collect();
    let asked = Asked::from_words(&Kept::default(), &words)?;
    let seen = SeenWhy::of(&asked, Some(record).filter(|_| is_admitted));
    edge.1(&seen).then_some(numbers)
}

/// Shares made for each set of reasons of each level, in rounds with the model
/// and one without.
pub const SHARES: usize = (MODELLED + 1) * ROUND;
const MODELLED: usize = 3;
/// Every set of every level.
const ROUND: usize = 3 * SETS;
/// Sets of reasons that may hold of a level at once.
const SETS: usize = 7;
/// Attempts at statics that fit each other.
const ATTEMPTS: usize = 200;

/// The admission of a turn's share, on whose first bare day the reasons of a
/// level are those of the turn.
pub fn made(random: &mut Random, id: i64, turn: usize) -> Option<Vec<i64>> {
    (0..ATTEMPTS).find_map(|_| made_attempt(random, id, turn))
}

fn made_attempt(random: &mut Random, id: i64, turn: usize) -> Option<Vec<i64>> {
    let (set, level) = (turn % SETS, turn / SETS % 3);
    let mut statics = Statics {
        a_up: 0,
        a_down: 0,
        is_ewma: turn < MODELLED * ROUND,
        s_max: *RATE.end() / 1_000 * 1_000,
        step: random.pick(&[1, 10, 25, 100, 100, 250, 1_000]),
        ..share::statics(random)
    };
    let step = statics.step;
    let tentative = step * random.between(0, 3_000 / step);
    let covering = least_covering(&statics, level, tentative, 0)?;
    let (least, most) = (0, statics.s_max);
    // What covers, the minimum and S_max stand together or a step apart.
    let (minimum, s_max) = match set {
        0 => (covering - step, covering + step),
        1 => (covering + step, most),
        2 => (least, covering - step),
        3 => (covering, most),
        4 => (covering - step, covering),
        5 => (covering + step, covering + step),
        _ => (covering, covering),
    };
    statics.minima = [0, 1, 2].map(|other| if other < level { least } else { minimum });
    statics.s_max = s_max;
    let s = tentative * ROUBLE / statics.multiplier;
    let p = share::price(random, statics.grid());
    let admission = share::numbers(&[id, 0, p, p, s, tentative], &statics);
    statics.is_sound().then_some(admission)
}

/// A day without faults: the record's next, with holidays of any count.
fn next_day(random: &mut Random, record: &Record) -> Vec<i64> {
    let mut numbers = day::bare(record.id, record.last_day() + 1);
    numbers[2] = random.pick(&[0, 0, 1, 2]);
    numbers[3] = random.pick(&[0, 0, 1, 6, 10]);
    numbers
}

/// A day whose close, bid, ask and previous evaluation often are one price.
fn meeting(random: &mut Random, record: &Record) -> Vec<i64> {
    let mut numbers = next_day(random, record);
    let grid = record.statics.grid();
    let near = record.p1 + random.between(-3, 3) * grid + random.pick(&[0, 0, grid / 2]);
    let far = record.p1 + record.p1 / 50 + grid;
    let prices = [record.p1, near, near, far].map(|price| price.clamp(1, *ROW_PRICE.end()));
    for _ in 0..random.pick(&[1, 1, 2, 3]) {
        let side = |random: &mut Random| random.pick(&[0, prices[0], prices[1], prices[3]]);
        let (one, other) = (side(random), side(random));
        let (bid, ask) = match (one, other) {
            (0, _) | (_, 0) => (one, other),
            _ => (one.min(other), one.max(other)),
        };
        // A thousandth of a rouble's weight rounds to none.
        let (rate, volume) = random.pick(&[(ROUBLE, 0), (ROUBLE, 1), (ROUBLE, 5), (1, 1)]);
        let close = random.pick(&prices);
        numbers.extend(if rate == ROUBLE {
            [0, rate, 0, close, bid, ask, volume]
        } else {
            [0, rate, 0, *ROW_PRICE.end(), 0, 0, volume]
        });
    }
    numbers
}

/// A day whose move is that of the last rate, a little more, or 100 per cent.
fn moving(random: &mut Random, record: &Record) -> Vec<i64> {
    let mut numbers = next_day(random, record);
    let grid = record.statics.grid();
    let by_rate = record.p1 / *RATE.end() * record.rates[0];
    let moved = random.pick(&[by_rate, by_rate + grid, -by_rate, record.p1]);
    let price = (record.p1 + moved).clamp(1, *ROW_PRICE.end());
    numbers.extend(day::traded_row(price));
    numbers
}

/// A day with faults of rows, terms, length or other values.
fn faulty(random: &mut Random, record: &Record) -> Vec<i64> {
    let mut numbers = next_day(random, record);
    let count = random.pick(&[1, 2, 3, 5, ROWS, ROWS, ROWS + 1]);
    let rows: Vec<i64> = (0..count)
        .flat_map(|_| day::traded_row(record.p1))
        .collect();
    numbers.extend(rows);
    for _ in 0..random.pick(&[1, 1, 2, 2, 3]) {
        let any = random.below(count);
        let place = random.pick(&[0, count - 1, any]);
        let row = edges::DAY.len() + ROW * place;
        match random.below(12) {
            0 | 1 => numbers[row] = *DAYS_AHEAD.end() + 1,
            2 => numbers[row + 6] = *ROW_VOLUME.end() + 1,
            3 | 4 => break_term(random, &mut numbers),
            5 => numbers.truncate(numbers.len() - random.pick(&[1, 3, 6])),
            6 => numbers[2] = *DAYS_BETWEEN.end() + 1,
            7 => numbers[3] = *DAYS_CLOSED.end() + 1,
            8 => {
                numbers[row + 4] = record.p1 + 1;
                numbers[row + 5] = record.p1;
            }
            9 => {
                // A price that rounds to 0.
                numbers[row + 1] = 1;
                numbers[row + 3] = 1;
            }
            10 => {
                // A volume above the greatest in roubles.
                numbers[row + 1] = ROUBLE * 10;
                numbers[row + 3] = (record.p1 / 10).max(1);
                numbers[row + 6] = *ROW_VOLUME.end();
            }
            _ => numbers[1] = record.last_day(),
        }
        if numbers.len() % ROW != edges::DAY.len() % ROW {
            break;
        }
    }
    numbers
}

fn break_term(random: &mut Random, numbers: &mut [i64]) {
    let term = TERMS + 3 * random.below(3);
    match random.below(3) {
        0 => numbers[term] = *DAYS_AHEAD.end() + 1,
        1 => numbers[term + 1] = numbers[term + 2] + 1,
        _ => numbers[term + 2] = *REPO_RATE.end() + 1,
    }
}

/// A day whose repo bands lie far above or below 0, so that a band may cross, or
/// whose price rounds off the greatest.
fn crossing(random: &mut Random, record: &Record) -> Vec<i64> {
    let mut numbers = next_day(random, record);
    let statics = &record.statics;
    let rate = if statics.pch_max < statics.pcl_max {
        *REPO_RATE.end()
    } else {
        *REPO_RATE.start()
    };
    for term in 0..3 {
        if random.chance(50) {
            let first = TERMS + 3 * term;
            numbers[first..first + 3].copy_from_slice(&[*DAYS_AHEAD.end(), rate, rate]);
        }
    }
    let grid = statics.grid();
    let price = random.pick(&[record.p1, record.p1, record.p1, (grid / 2 - 1).max(1)]);
    numbers.extend(day::traded_row(price));
    numbers
}
