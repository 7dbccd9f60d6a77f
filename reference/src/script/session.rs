//! Securities made for the edges of an evening (W-210): its maximum, the sides
//! that move in it, and the moves that the main session leaves it.

use crate::random::Random;
use crate::record::Side;
use crate::statics::Statics;

use super::{edges, share};

/// The place of the evening's statics, and how many they are.
const EVENING: usize = 22;
const OF_EVENING: usize = 3;

/// The sides of an evening's moves.
#[derive(Clone, Copy, Debug, PartialEq, Eq)]
pub enum Sides {
    One(Side),
    /// By turns.
    Both,
}

/// What a security's sessions are made for.
#[derive(Clone, Copy, Debug)]
pub struct Plan {
    pub monitoring: bool,
    pub autochange: bool,
    pub maximum: i64,
    /// The main session's moves, upper and lower.
    pub main: [i64; 2],
    pub sides: Sides,
    /// u is below u of the evening, and not above it.
    pub is_u_below: bool,
}

/// Maxima at both ends, and the least that has a move.
const MAXIMA: [i64; 3] = [0, 1, 10];
const SIDES: [Sides; 3] = [
    Sides::One(Side::Upper),
    Sides::One(Side::Lower),
    Sides::Both,
];
/// Moves of the main session beside which an evening of ten moves meets 49 and
/// 50, or does not reach them.
const BESIDE_FIFTY: [[i64; 2]; 5] = [[40, 0], [39, 0], [47, 5], [49, 1], [50, 0]];

/// Every plan: each maximum with each of the sides, fifty moves over both
/// sessions, an evening without Autochange and one without Monitoring.
pub fn plans() -> Vec<Plan> {
    let plan = Plan {
        monitoring: true,
        autochange: true,
        maximum: *MAXIMA.last().expect("there are maxima"),
        main: [1, 0],
        sides: Sides::Both,
        is_u_below: true,
    };
    let mut plans = Vec::new();
    for maximum in MAXIMA {
        for sides in SIDES {
            plans.push(Plan {
                maximum,
                sides,
                ..plan
            });
        }
    }
    let sides = Sides::One(Side::Upper);
    plans.extend(BESIDE_FIFTY.map(|main| Plan {
        main,
        sides,
        ..plan
    }));
    plans.push(Plan {
        autochange: false,
        ..plan
    });
    plans.push(Plan {
        monitoring: false,
        maximum: 0,
        ..plan
    });
    for (turn, plan) in plans.iter_mut().enumerate() {
        plan.is_u_below = turn % 2 == 0;
    }
    plans
}

impl Sides {
    /// The side of the n-th move.
    pub fn side(self, turn: i64) -> i64 {
        match self {
            Sides::One(Side::Upper) => 0,
            Sides::One(Side::Lower) => 1,
            Sides::Both => turn % 2,
        }
    }
}

impl Plan {
    /// The plan with its two sides in each other's place.
    pub fn turned(self) -> Plan {
        let sides = match self.sides {
            Sides::One(Side::Upper) => Sides::One(Side::Lower),
            Sides::One(Side::Lower) => Sides::One(Side::Upper),
            Sides::Both => Sides::Both,
        };
        Plan {
            main: [self.main[1], self.main[0]],
            sides,
            ..self
        }
    }

    /// The numbers of the plan's admission.
    pub fn admission(&self, random: &mut Random, id: i64) -> Vec<i64> {
        let short = random.between(2, 90);
        let long = short + random.between(2, 90);
        let (near_seconds, evening_seconds) = if self.is_u_below {
            (short, long)
        } else {
            (long, short)
        };
        let statics = Statics {
            lot: random.pick(&[1, 10, 100]),
            shift: random.pick(&[1, 25, 100]),
            near_seconds,
            monitoring: self.monitoring,
            is_ewma: random.chance(85),
            evening_seconds,
            autochange: self.autochange,
            evening_maximum: self.maximum,
            ..share::Z
        };
        share::numbers(&[id, 0, 1_000_000, 1_000_000, 20_000, 600], &statics)
    }
}

/// An admission with one of the evening's statics just past an end of its range,
/// each in its turn.
pub fn refused(admission: &[i64], turn: usize) -> Vec<i64> {
    let place = EVENING + turn / 2 % OF_EVENING;
    let (low, high) = edges::STATICS[place];
    let mut refused = admission.to_vec();
    refused[edges::ADMISSION.len() + place] = [low - 1, high + 1][turn % 2];
    refused
}
