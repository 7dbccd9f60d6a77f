//! Outside prices beside the book's in an evaluation, with UseEXTERNAL yes and
//! no, and the reasons that name them.

use crate::evaluation::{settled, sides_in_roubles, Settled, ROW};
use crate::outside::{Outside, Quoted};
use crate::record::Record;
use crate::refusal::Refusal;
use crate::replay::Call;
use crate::security::{made, Day};
use crate::tally::{names, Edge, Tally};
use crate::units::{ONE_IN_TEN_THOUSANDTHS, PRICE};
use crate::why::{why, Price};

/// The place of a row's central rate.
const CENTRAL_RATE: usize = 1;
/// How far apart two prices are that are far apart, in units.
const FAR: i64 = 1_000;

/// What came before a day of an id.
#[derive(Clone, Copy, Default)]
pub struct Past {
    /// Whether the pair that is kept set the price of a day before.
    pub is_taken: bool,
}

/// An evaluation of a known id whose rows are in range.
struct SeenDay {
    number: i64,
    before: Record,
    past: Past,
    /// BID and ASK of the rows alone.
    book: [Option<i64>; 2],
    /// Whether every row is of a currency.
    is_currency: bool,
    has_close: bool,
    /// What the rows settle, with the outside prices that are kept and without.
    with: Settled,
    without: Settled,
    /// What would be answered but for the outside prices, 16 and 5 aside.
    otherwise: i64,
    /// The reason that is named for the price, of an accepted evaluation.
    reason: Option<Price>,
}

fn place(side: Quoted) -> usize {
    match side {
        Quoted::Bid => 0,
        Quoted::Ask => 1,
    }
}

fn answer(record: &Record, day: &Day) -> i64 {
    made(record, day).map_or_else(Refusal::number, |_| 0)
}

impl SeenDay {
    fn of(call: &Call, past: Past) -> Option<SeenDay> {
        let (before, asked) = (call.before?, call.asked()?);
        let day = asked.day();
        if !day.is_in_range() {
            return None;
        }
        let (bid, ask) = sides_in_roubles(day.rows)?;
        let is_currency = |row: &[i64]| row[CENTRAL_RATE] != ONE_IN_TEN_THOUSANDTHS as i64;
        let without = settled(day.rows, Outside::NONE, before.p1)?;
        let bare = Record {
            outside: Outside::NONE,
            ..before
        };
        Some(SeenDay {
            number: call.answer.number(),
            before,
            past,
            book: [bid, ask],
            is_currency: day.rows.chunks_exact(ROW).all(is_currency),
            has_close: without.close.is_some(),
            with: settled(day.rows, before.outside, before.p1)?,
            without,
            otherwise: answer(&bare, &day),
            reason: why(Some(&before), &day).ok().map(|reasons| reasons.price),
        })
    }

    fn is_done(&self) -> bool {
        self.number == 0
    }

    fn is(&self, refusal: Refusal) -> bool {
        self.number == refusal.number()
    }

    fn uses(&self) -> bool {
        self.before.statics.use_external
    }

    /// The outside price of a side, where there is one.
    fn outside(&self, side: Quoted) -> Option<i64> {
        Some(side.of(self.before.outside)).filter(|price| *price > 0)
    }

    fn book(&self, side: Quoted) -> Option<i64> {
        self.book[place(side)]
    }

    /// How far the outside price of a side stands above the book's.
    fn above(&self, side: Quoted) -> Option<i64> {
        Some(self.outside(side)? - self.book(side)?)
    }

    /// The kept pair makes another price, and that is the side's.
    fn is_set_by(&self, side: Quoted) -> bool {
        let is_set = self.outside(side) == Some(self.with.price);
        is_set && self.with.price != self.without.price
    }

    /// Accepted with UseEXTERNAL yes, and the side's outside price set the price.
    fn sets(&self, side: Quoted) -> bool {
        self.is_done() && self.uses() && self.is_set_by(side)
    }

    /// Accepted with UseEXTERNAL yes, and an outside price so far off the grid set
    /// the price, in units.
    fn sets_off_grid(&self, holds: impl Fn(i64, i64) -> bool) -> bool {
        let grid = self.before.statics.grid();
        let is_set = Quoted::BOTH.into_iter().any(|side| self.sets(side));
        is_set && holds(self.with.price % grid, grid)
    }

    /// Accepted with UseEXTERNAL yes, of rows of a currency, with a side's outside
    /// price so far above the book's.
    fn is_beside_currency(&self, side: Quoted, above: i64) -> bool {
        self.is_done() && self.uses() && self.is_currency && self.above(side) == Some(above)
    }

    /// An outside bid above the outside ask.
    fn is_crossed(&self) -> bool {
        matches!(Quoted::BOTH.map(|side| self.outside(side)), [Some(bid), Some(ask)] if bid > ask)
    }

    /// The reason with UseEXTERNAL yes.
    fn names(&self, reason: Price) -> bool {
        self.uses() && self.reason == Some(reason)
    }

    /// Refused by a number since the outside prices are used, and for nothing
    /// else.
    fn is_refused_by_outside(&self, refusal: Refusal) -> bool {
        self.is(refusal) && self.uses() && self.otherwise == 0
    }

    /// Accepted with UseEXTERNAL no, where the kept pair would be refused.
    fn would_be_refused(&self, holds: impl Fn(i64) -> bool) -> bool {
        self.is_done() && !self.uses() && holds(self.with.price)
    }
}

/// How the outside price of a side may stand to the book's.
const BESIDES: [(&str, fn(&SeenDay, Quoted) -> bool); 8] = [
    ("neither is there", |d, side| {
        d.outside(side).is_none() && d.book(side).is_none()
    }),
    ("the outside one alone", |d, side| {
        d.outside(side).is_some() && d.book(side).is_none()
    }),
    ("the book's alone", |d, side| {
        d.outside(side).is_none() && d.book(side).is_some()
    }),
    ("the outside one far below the book's", |d, side| {
        d.above(side).map_or(false, |above| above < -FAR)
    }),
    ("the outside one one below the book's", |d, side| {
        d.above(side) == Some(-1)
    }),
    ("the outside one equal to the book's", |d, side| {
        d.above(side) == Some(0)
    }),
    ("the outside one one above the book's", |d, side| {
        d.above(side) == Some(1)
    }),
    ("the outside one far above the book's", |d, side| {
        d.above(side).map_or(false, |above| above > FAR)
    }),
];

fn beside_edge(uses: bool, side: Quoted, beside: &str) -> String {
    let uses = if uses { "yes" } else { "no" };
    format!("UseEXTERNAL {uses}, {side:?}: {beside}")
}

fn beside_edges() -> impl Iterator<Item = String> {
    let sides = [true, false]
        .into_iter()
        .flat_map(|uses| Quoted::BOTH.map(|side| (uses, side)));
    sides.flat_map(|(uses, side)| BESIDES.map(|(beside, _)| beside_edge(uses, side, beside)))
}

const DAYS: [Edge<SeenDay>; 41] = [
    ("the outside bid sets the price", |d| d.sets(Quoted::Bid)),
    ("the outside ask sets the price", |d| d.sets(Quoted::Ask)),
    ("the outside bid sets the price, no close", |d| {
        d.sets(Quoted::Bid) && !d.has_close
    }),
    ("the outside ask sets the price, no close", |d| {
        d.sets(Quoted::Ask) && !d.has_close
    }),
    (
        "the outside bid sets the price, both sides in the book",
        |d| d.sets(Quoted::Bid) && d.book.iter().all(Option::is_some),
    ),
    (
        "the outside ask sets the price, both sides in the book",
        |d| d.sets(Quoted::Ask) && d.book.iter().all(Option::is_some),
    ),
    (
        "UseEXTERNAL no, and the outside bid would set the price",
        |d| d.is_done() && !d.uses() && d.is_set_by(Quoted::Bid),
    ),
    (
        "UseEXTERNAL no, and the outside ask would set the price",
        |d| d.is_done() && !d.uses() && d.is_set_by(Quoted::Ask),
    ),
    ("the outside bid above the book's ask", |d| {
        let (bid, ask) = (d.outside(Quoted::Bid), d.book(Quoted::Ask));
        d.is_done() && d.uses() && ask.is_some() && bid > ask
    }),
    ("the outside ask below the book's bid", |d| {
        let (bid, ask) = (d.book(Quoted::Bid), d.outside(Quoted::Ask));
        d.is_done() && d.uses() && ask.is_some() && bid > ask
    }),
    ("the outside prices crossed, the close between", |d| {
        let is_between = d.with.close == Some(d.with.price);
        d.is_done() && d.uses() && d.is_crossed() && is_between
    }),
    ("the outside prices crossed, the close above", |d| {
        d.sets(Quoted::Bid) && d.is_crossed() && d.has_close
    }),
    ("the outside prices crossed, the close below", |d| {
        d.sets(Quoted::Ask) && d.is_crossed() && d.has_close
    }),
    ("a currency: the outside bid one below the book's", |d| {
        d.is_beside_currency(Quoted::Bid, -1)
    }),
    ("a currency: the outside bid one above the book's", |d| {
        d.is_beside_currency(Quoted::Bid, 1)
    }),
    ("a currency: the outside ask one below the book's", |d| {
        d.is_beside_currency(Quoted::Ask, -1)
    }),
    ("a currency: the outside ask one above the book's", |d| {
        d.is_beside_currency(Quoted::Ask, 1)
    }),
    ("an outside price sets the price, on the grid", |d| {
        d.sets_off_grid(|off, _| off == 0)
    }),
    ("an outside price sets the price, a tie of the grid", |d| {
        d.sets_off_grid(|off, grid| off > 0 && 2 * off == grid)
    }),
    (
        "an outside price sets the price, below a tie of the grid",
        |d| d.sets_off_grid(|off, grid| off > 0 && 2 * (off + 1) == grid),
    ),
    ("one pair sets the price of two days", |d| {
        let is_set = Quoted::BOTH.into_iter().any(|side| d.sets(side));
        is_set && d.past.is_taken
    }),
    ("the outside bid 10^10 sets the price", |d| {
        d.sets(Quoted::Bid) && d.with.price == *PRICE.end()
    }),
    ("the outside ask 1 sets the price", |d| {
        d.sets(Quoted::Ask) && d.with.price == *PRICE.start()
    }),
    ("7: by an outside ask that the grid rounds to 0", |d| {
        d.is_refused_by_outside(Refusal::EvaluationOutOfRange)
    }),
    ("an outside ask of half a grid step of 100", |d| {
        d.sets(Quoted::Ask) && d.with.price == 50 && d.before.statics.grid() == 100
    }),
    ("UseEXTERNAL no, and it would be 7", |d| {
        let half = d.before.statics.grid() / 2;
        d.would_be_refused(|price| price < half)
    }),
    ("8: by an outside bid", |d| {
        d.is_refused_by_outside(Refusal::MoveTooGreat) && d.is_set_by(Quoted::Bid)
    }),
    ("an outside bid of twice the price", |d| {
        d.sets(Quoted::Bid) && d.with.price == 2 * d.before.p1 && d.before.statics.is_ewma
    }),
    ("UseEXTERNAL no, and it would be 8", |d| {
        let is_ewma = d.before.statics.is_ewma;
        d.would_be_refused(|price| is_ewma && price > 2 * d.before.p1.max(d.before.p2))
    }),
    ("16: a crossed row beside a pair, UseEXTERNAL yes", |d| {
        d.is(Refusal::CrossedRow) && d.uses() && d.before.outside != Outside::NONE
    }),
    ("16: a crossed row beside a pair, UseEXTERNAL no", |d| {
        d.is(Refusal::CrossedRow) && !d.uses() && d.before.outside != Outside::NONE
    }),
    ("why: bid, by the outside one", |d| {
        d.names(Price::Bid) && d.is_set_by(Quoted::Bid)
    }),
    ("why: ask, by the outside one", |d| {
        d.names(Price::Ask) && d.is_set_by(Quoted::Ask)
    }),
    ("why: close, and the outside bid is equal", |d| {
        d.names(Price::Close) && d.outside(Quoted::Bid) == Some(d.with.price)
    }),
    ("why: close, and the outside ask is equal", |d| {
        d.names(Price::Close) && d.outside(Quoted::Ask) == Some(d.with.price)
    }),
    ("why: bid, and yesterday's price is equal", |d| {
        let is_equal = d.outside(Quoted::Bid) == Some(d.before.p1);
        d.names(Price::Bid) && !d.has_close && is_equal
    }),
    ("why: ask, and yesterday's price is equal", |d| {
        let is_equal = d.outside(Quoted::Ask) == Some(d.before.p1);
        d.names(Price::Ask) && !d.has_close && is_equal
    }),
    ("why: yesterday, an outside bid below it", |d| {
        d.names(Price::Yesterday) && d.outside(Quoted::Bid).is_some()
    }),
    ("why: yesterday, an outside ask above it", |d| {
        d.names(Price::Yesterday) && d.outside(Quoted::Ask).is_some()
    }),
    ("why: close, UseEXTERNAL no, and it would be another", |d| {
        let is_set = Quoted::BOTH.into_iter().any(|side| d.is_set_by(side));
        !d.uses() && d.reason == Some(Price::Close) && is_set
    }),
    (
        "why: yesterday, UseEXTERNAL no, and it would be another",
        |d| {
            let is_set = Quoted::BOTH.into_iter().any(|side| d.is_set_by(side));
            !d.uses() && d.reason == Some(Price::Yesterday) && is_set
        },
    ),
];

/// The edges of evaluations.
pub fn edges() -> impl Iterator<Item = String> {
    beside_edges().chain(names(DAYS.to_vec()))
}

/// Meets the edges of an evaluation.
pub fn look(tally: &mut Tally, call: &Call, past: &mut Past) {
    let day = match SeenDay::of(call, *past) {
        Some(day) => day,
        None => return,
    };
    tally.look(&DAYS, &day);
    if !day.is_done() {
        return;
    }
    for side in Quoted::BOTH {
        for (beside, is_met) in BESIDES {
            if is_met(&day, side) {
                tally.meet(&beside_edge(day.uses(), side, beside));
            }
        }
    }
    past.is_taken |= Quoted::BOTH.into_iter().any(|side| day.sets(side));
}
