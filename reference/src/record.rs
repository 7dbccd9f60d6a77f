//! A security's record (document 01, "What the desk covers"; its session is
//! W-210's, its outside prices are W-211's).

use crate::ewma::Volatility;
use crate::exact::Way;
use crate::outside::Outside;
use crate::statics::Statics;
use crate::units::{
    AGE, DAYS_AHEAD, DAY_NUMBER, EVENING_MOVES, ID, LIMIT, MOVE_COUNT, PRICE, RATE, REPO_RATE,
    SECOND, VOLATILITY,
};

/// How many figures a record shows.
pub const FIGURES: usize = 45;

/// How a near second is shown where there is none.
const NOT_NEAR: i64 = -1;

/// The two sides of ranges and bands.
#[derive(Clone, Copy, Debug, PartialEq, Eq)]
pub enum Side {
    Upper,
    Lower,
}

impl Side {
    /// Side 0 is the upper one, 1 the lower.
    pub fn from_number(number: i64) -> Option<Side> {
        match number {
            0 => Some(Side::Upper),
            1 => Some(Side::Lower),
            _ => None,
        }
    }
}

impl Side {
    /// The way of rounding that goes into the band (W-209).
    pub fn inward(self) -> Way {
        match self {
            Side::Upper => Way::Down,
            Side::Lower => Way::Up,
        }
    }
}

/// A record's standing, with its last day number.
#[derive(Clone, Copy, Debug, PartialEq, Eq)]
pub enum Standing {
    Admitted(i64),
    Live(i64),
}

/// A record's session.
#[derive(Clone, Copy, Debug, PartialEq, Eq)]
pub enum Session {
    Main,
    /// With the moves made in it, of both sides together.
    Evening(i64),
}

impl Session {
    /// Whether the moves that an evening carries are so many as it may have.
    fn is_sound(self) -> bool {
        match self {
            Session::Main => true,
            Session::Evening(moves) => EVENING_MOVES.contains(&moves),
        }
    }

    /// The session after one move more.
    pub fn moved(self) -> Session {
        match self {
            Session::Main => Session::Main,
            Session::Evening(moves) => Session::Evening(moves + 1),
        }
    }

    /// How it is shown: 0 main or 1 evening, and the evening's moves.
    fn figures(self) -> [i64; 2] {
        match self {
            Session::Main => [0, 0],
            Session::Evening(moves) => [1, moves],
        }
    }
}

/// A term: its days, its repo band and its band limits, and the seconds at
/// which the top and the bottom became near.
#[derive(Clone, Copy, Debug, PartialEq, Eq)]
pub struct Term {
    /// Days k.
    pub days: i64,
    pub rrcl: i64,
    pub rrch: i64,
    /// The lower band limit, PcL.
    pub lower: i64,
    /// The upper band limit, PcH.
    pub upper: i64,
    pub near_top: Option<i64>,
    pub near_bottom: Option<i64>,
}

/// One security of the table; id 0 marks an empty slot.
#[derive(Clone, Copy, Debug, PartialEq, Eq)]
pub struct Record {
    pub id: i64,
    pub statics: Statics,
    pub standing: Standing,
    /// The latest evaluation, P1.
    pub p1: i64,
    /// The evaluation before it, P2.
    pub p2: i64,
    /// Volatility.
    pub s: i64,
    pub tentative: i64,
    pub age: i64,
    /// S_1, S_2, S_3.
    pub rates: [i64; 3],
    /// The upper range limits of the three levels.
    pub upper: [i64; 3],
    /// The lower range limits of the three levels.
    pub lower: [i64; 3],
    pub terms: [Term; 3],
    pub moves_upper: i64,
    pub moves_lower: i64,
    pub last_second: i64,
    pub session: Session,
    pub outside: Outside,
}

impl Record {
    /// An empty slot.
    pub const EMPTY: Record = Record {
        id: 0,
        statics: Statics::EMPTY,
        standing: Standing::Admitted(0),
        p1: 0,
        p2: 0,
        s: 0,
        tentative: 0,
        age: 0,
        rates: [0; 3],
        upper: [0; 3],
        lower: [0; 3],
        terms: [Term::EMPTY; 3],
        moves_upper: 0,
        moves_lower: 0,
        last_second: 0,
        session: Session::Main,
        outside: Outside::NONE,
    };

    pub fn is_live(&self) -> bool {
        matches!(self.standing, Standing::Live(_))
    }

    /// The seconds for which a side is near before its alert: u of the session.
    pub fn near_seconds(&self) -> i64 {
        match self.session {
            Session::Main => self.statics.near_seconds,
            Session::Evening(_) => self.statics.evening_seconds,
        }
    }

    /// The outside prices that an evaluation takes: those kept, with UseEXTERNAL
    /// yes.
    pub fn taken_outside(&self) -> Outside {
        if self.statics.use_external {
            self.outside
        } else {
            Outside::NONE
        }
    }

    /// What an evaluation carries on from the day before.
    pub fn volatility(&self) -> Volatility {
        Volatility {
            s: self.s,
            tentative: self.tentative,
            age: self.age,
        }
    }

    /// The last day: of the admission, or of the latest evaluation.
    pub fn last_day(&self) -> i64 {
        match self.standing {
            Standing::Admitted(day) | Standing::Live(day) => day,
        }
    }

    /// Whether every field is within the ranges, orders, multiples of h and
    /// grid of the paper; a record that is not counts as no such id.
    pub fn is_sound(&self) -> bool {
        ID.contains(&self.id)
            && self.statics.is_sound()
            && DAY_NUMBER.contains(&self.last_day())
            && is_price(&self.statics, self.p1)
            && is_price(&self.statics, self.p2)
            && VOLATILITY.contains(&self.s)
            && is_tentative(&self.statics, self.tentative)
            && AGE.contains(&self.age)
            && self.rates.iter().all(|rate| RATE.contains(rate))
            && self.upper.iter().all(|limit| self.is_limit(*limit))
            && self.lower.iter().all(|limit| self.is_limit(*limit))
            && self.terms.iter().all(|term| self.is_term(term))
            && MOVE_COUNT.contains(&self.moves_upper)
            && MOVE_COUNT.contains(&self.moves_lower)
            && SECOND.contains(&self.last_second)
            && self.session.is_sound()
            && self.outside.is_sound()
    }

    fn is_limit(&self, limit: i64) -> bool {
        LIMIT.contains(&limit) && self.statics.is_on_grid(limit)
    }

    fn is_term(&self, term: &Term) -> bool {
        is_repo_term(term.days, term.rrcl, term.rrch)
            && self.is_limit(term.lower)
            && self.is_limit(term.upper)
            && is_near_second(term.near_top)
            && is_near_second(term.near_bottom)
    }

    /// The record's figures in the order of the text protocol.
    pub fn figures(&self) -> [i64; FIGURES] {
        let mut figures = [0; FIGURES];
        figures[..8].copy_from_slice(&[
            self.id,
            i64::from(self.is_live()),
            self.last_day(),
            self.p1,
            self.p2,
            self.s,
            self.tentative,
            self.age,
        ]);
        figures[8..11].copy_from_slice(&self.rates);
        figures[11..14].copy_from_slice(&self.upper);
        figures[14..17].copy_from_slice(&self.lower);
        for (place, term) in figures[17..38].chunks_exact_mut(7).zip(&self.terms) {
            place.copy_from_slice(&term.figures());
        }
        figures[38..41].copy_from_slice(&[self.moves_upper, self.moves_lower, self.last_second]);
        figures[41..43].copy_from_slice(&self.session.figures());
        figures[43..].copy_from_slice(&[self.outside.bid, self.outside.ask]);
        figures
    }
}

impl Term {
    /// A term that no evaluation has made.
    const EMPTY: Term = Term {
        days: 0,
        rrcl: 0,
        rrch: 0,
        lower: 0,
        upper: 0,
        near_top: None,
        near_bottom: None,
    };

    /// The lower band limit above the upper one.
    pub fn is_crossed(&self) -> bool {
        self.lower > self.upper
    }

    fn figures(&self) -> [i64; 7] {
        [
            self.days,
            self.rrcl,
            self.rrch,
            self.lower,
            self.upper,
            self.near_top.unwrap_or(NOT_NEAR),
            self.near_bottom.unwrap_or(NOT_NEAR),
        ]
    }
}

/// An evaluation in range and on the grid.
pub fn is_price(statics: &Statics, price: i64) -> bool {
    PRICE.contains(&price) && statics.is_on_grid(price)
}

/// A tentative rate (W-208): 0 to the least multiple of h at or above 100,000, a
/// multiple of h.
pub fn is_tentative(statics: &Statics, tentative: i64) -> bool {
    (0..=statics.tentative_max()).contains(&tentative) && statics.is_multiple_of_step(tentative)
}

/// A near second: none, or a second of the day.
fn is_near_second(since: Option<i64>) -> bool {
    since.map_or(true, |second| SECOND.contains(&second))
}

/// A term's days and repo band, RRcL ≤ RRcH.
pub fn is_repo_term(days: i64, rrcl: i64, rrch: i64) -> bool {
    DAYS_AHEAD.contains(&days)
        && REPO_RATE.contains(&rrcl)
        && REPO_RATE.contains(&rrch)
        && rrcl <= rrch
}
