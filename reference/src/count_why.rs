//! Counts how often a script of the evening meets each edge of W-207: every set
//! of reasons that hold at once, and what is at fault where more than one thing
//! is. The script generator aims at the same edges.

use std::io::{self, BufRead};

use crate::count::Count;
use crate::evaluation::{crossed_rows, is_row_length, rows_out_of_range, settled, unfit_rows};
use crate::evaluation::{Settled, ROW};
use crate::ewma::Chosen;
use crate::protocol::Asked;
use crate::rates::{least_covering, target, Turn};
use crate::record::{Record, Term};
use crate::refusal::Refusal;
use crate::replay::evaluations;
use crate::security::{evaluated, made};
use crate::tally::Tally;
use crate::units::{MILLIONTHS_IN_BP, TARGET_MAX, VOLATILITY};
use crate::why::{turn_of, why, Fault, Level, Price, Why};

/// An evaluation, and everything that holds of it.
pub struct SeenWhy {
    pub asked: Asked,
    /// The record before; none where there is no such id.
    pub before: Option<Record>,
    /// The record after, where the evaluation is accepted.
    after: Option<Record>,
    why: Why,
    /// The price before the grid, of an accepted evaluation.
    settled: Option<Settled>,
    /// The price reasons that hold.
    prices: Vec<Price>,
    /// The reasons of each level that hold.
    levels: [Vec<Level>; 3],
    /// With isEWMA yes.
    turn: Option<Turn>,
    out_of_range: Vec<usize>,
    terms_out_of_range: Vec<usize>,
}

impl SeenWhy {
    pub fn of(asked: &Asked, before: Option<&Record>) -> SeenWhy {
        let day = asked.day();
        let accepted = before.and_then(|before| {
            let after = evaluated(before, &day).ok()?;
            Some((before, after))
        });
        let mut seen = SeenWhy {
            asked: asked.clone(),
            before: before.copied(),
            after: accepted.map(|(_, after)| after),
            why: why(before, &day),
            settled: None,
            prices: Vec::new(),
            levels: Default::default(),
            turn: None,
            out_of_range: rows_out_of_range(&asked.rows).collect(),
            terms_out_of_range: (0..3)
                .filter(|term| !asked.terms[*term].is_in_range())
                .collect(),
        };
        if let Some((before, after)) = accepted {
            seen.see(before, &after);
        }
        seen
    }

    fn see(&mut self, before: &Record, after: &Record) {
        let statics = &before.statics;
        self.settled = settled(&self.asked.rows, before.taken_outside(), before.p1);
        let settled = &self.settled;
        let holds = |reason: &Price| {
            let settled = settled.as_ref();
            settled.map_or(false, |settled| reason.holds(settled, before.p1))
        };
        self.prices = Price::ALL.into_iter().filter(holds).collect();
        let days_closed = self.asked.days_closed;
        for (level, reasons) in self.levels.iter_mut().enumerate() {
            let covering = least_covering(statics, level, after.tentative, days_closed);
            let rate = after.rates[level];
            let holds = |reason: &Level| reason.holds(statics, level, rate, covering);
            *reasons = Level::ALL.into_iter().filter(holds).collect();
        }
        if statics.is_ewma {
            self.turn = Some(turn_of(before, &self.asked.day(), after.p1));
        }
    }

    /// Holds of an accepted evaluation with isEWMA yes.
    fn turns(&self, holds: impl Fn(&Record, &Turn, &Record) -> bool) -> bool {
        match (&self.before, &self.turn, &self.after) {
            (Some(before), Some(turn), Some(after)) => holds(before, turn, after),
            _ => false,
        }
    }

    fn is_ewma(&self) -> bool {
        self.turn.is_some()
    }

    /// The weighed volatility x and the replacement y, where it is asked for.
    fn volatilities(&self) -> Option<(i64, i64)> {
        let turn = self.turn.as_ref()?;
        Some((turn.x, turn.y?))
    }

    /// Holds of the move beside the last rate, in millionths, where at most one
    /// holiday lies between, or more.
    fn moves(&self, has_weight: bool, holds: impl Fn(i64, i64) -> bool) -> bool {
        has_weight == (self.asked.days_between < 2)
            && self.turns(|before, turn, _| holds(turn.r, MILLIONTHS_IN_BP * before.rates[0]))
    }

    /// Refused by the number, at that fault.
    fn is_at(&self, refusal: Refusal, fault: Fault) -> bool {
        self.why == Err((refusal, fault))
    }

    /// Out of range, at that fault.
    fn is_6(&self, fault: Fault) -> bool {
        self.is_at(Refusal::ValueOutOfRange, fault)
    }

    fn is_length(&self) -> bool {
        is_row_length(&self.asked.rows)
    }

    fn is_late(&self) -> bool {
        let last = |record: &Record| self.asked.number <= record.last_day();
        self.before.as_ref().map_or(false, last)
    }

    fn is_refused(&self, refusal: Refusal) -> bool {
        matches!(self.why, Err((why, _)) if why == refusal)
    }

    /// The places of the rows that are crossed, where that is the refusal.
    fn crossed(&self) -> Vec<usize> {
        let places = crossed_rows(&self.asked.rows);
        places
            .filter(|_| self.is_refused(Refusal::CrossedRow))
            .collect()
    }

    /// The places of the rows that do not fit, where 7 is the refusal.
    fn unfit(&self) -> Vec<usize> {
        if !self.is_refused(Refusal::EvaluationOutOfRange) {
            return Vec::new();
        }
        unfit_rows(&self.asked.rows).collect()
    }

    /// The terms that are crossed, where 9 is the refusal.
    fn crossed_terms(&self) -> Vec<usize> {
        let record = match &self.before {
            Some(record) if self.is_refused(Refusal::BandCrossed) => record,
            _ => return Vec::new(),
        };
        let after = made(record, &self.asked.day());
        let terms = after.map_or(Vec::new(), |after| after.terms.to_vec());
        let places = (0..terms.len()).filter(|place| Term::is_crossed(&terms[*place]));
        places.collect()
    }

    /// Whether a row that does not fit fails by its volume alone.
    fn is_unfit_by_volume(&self) -> bool {
        self.unfit().first().map_or(false, |row| {
            let mut row = self.asked.rows[ROW * row..ROW * (row + 1)].to_vec();
            row[ROW - 1] = 0;
            let is_fit = unfit_rows(&row).next().is_none();
            is_fit
        })
    }
}

/// An edge of a name, and whether what is seen stands at it.
pub type NamedEdge = (String, Box<dyn Fn(&SeenWhy) -> bool>);

/// Every edge, in the order in which they are told.
pub fn edges() -> Vec<NamedEdge> {
    let mut edges = price_edges();
    edges.extend(level_edges());
    for (name, is_met) in OTHERS {
        edges.push((name.to_string(), Box::new(is_met)));
    }
    edges
}

/// Sets of price reasons that may hold at once.
fn price_edges() -> Vec<NamedEdge> {
    use Price::{Ask, Bid, Close, Yesterday};
    let sets: [&'static [Price]; 11] = [
        &[Close],
        &[Bid],
        &[Ask],
        &[Yesterday],
        &[Close, Bid],
        &[Close, Ask],
        &[Close, Bid, Ask],
        &[Bid, Ask],
        &[Bid, Yesterday],
        &[Ask, Yesterday],
        &[Bid, Ask, Yesterday],
    ];
    let edge = |set: &'static [Price]| -> NamedEdge {
        let is_met = move |seen: &SeenWhy| seen.prices == set;
        (format!("price: {set:?}"), Box::new(is_met))
    };
    sets.into_iter().map(edge).collect()
}

/// Sets of a level's reasons that may hold at once.
fn level_edges() -> Vec<NamedEdge> {
    use Level::{Maximum, Minimum, Requirement};
    let sets: [&'static [Level]; 7] = [
        &[Requirement],
        &[Minimum],
        &[Maximum],
        &[Requirement, Minimum],
        &[Requirement, Maximum],
        &[Minimum, Maximum],
        &[Requirement, Minimum, Maximum],
    ];
    let edge = |(level, set): (usize, &'static [Level])| -> NamedEdge {
        let is_met = move |seen: &SeenWhy| seen.is_ewma() && seen.levels[level] == set;
        (format!("level {}: {set:?}", level + 1), Box::new(is_met))
    };
    let levels = (0..3).flat_map(|level| sets.map(|set| (level, set)));
    levels.map(edge).collect()
}

type Plain = (&'static str, fn(&SeenWhy) -> bool);

const OTHERS: [Plain; 71] = [
    ("the grid moves the price that the close set", |w| {
        let price = w.settled.map(|settled| settled.price);
        w.prices == [Price::Close] && price != w.after.map(|after| after.p1)
    }),
    ("the close is the previous evaluation", |w| {
        let previous = w.before.map(|before| before.p1);
        let close = w.settled.and_then(|settled| settled.close);
        w.prices.contains(&Price::Close) && close == previous
    }),
    (
        "a traded row has no weight, and the price is yesterday's",
        |w| {
            let has_volume = w.asked.rows.chunks_exact(ROW).any(|row| row[ROW - 1] > 0);
            w.prices == [Price::Yesterday] && has_volume
        },
    ),
    ("weight: two holidays, r above s", |w| {
        w.asked.days_between == 2 && w.turns(|before, turn, _| turn.r > before.s)
    }),
    ("weight: two holidays, r not above s", |w| {
        w.asked.days_between == 2 && w.turns(|before, turn, _| turn.r <= before.s)
    }),
    ("weight: one holiday, r above s", |w| {
        w.asked.days_between == 1 && w.turns(|before, turn, _| turn.r > before.s)
    }),
    ("weight: r one above s", |w| {
        w.asked.days_between < 2 && w.turns(|before, turn, _| turn.r == before.s + 1)
    }),
    ("weight: r equal to s", |w| {
        w.asked.days_between < 2 && w.turns(|before, turn, _| turn.r == before.s && turn.r > 0)
    }),
    ("weight: r one below s", |w| {
        w.asked.days_between < 2 && w.turns(|before, turn, _| turn.r + 1 == before.s)
    }),
    ("replacement one below x", |w| {
        w.volatilities().map_or(false, |(x, y)| y == x - 1)
    }),
    ("replacement equal to x", |w| {
        w.volatilities().map_or(false, |(x, y)| y == x)
    }),
    ("replacement one above x", |w| {
        w.volatilities().map_or(false, |(x, y)| y == x + 1)
    }),
    ("figures: no move", |w| {
        w.turns(|before, turn, _| turn.r == 0 && before.s > 0)
    }),
    ("figures: a move of 100 per cent", |w| {
        w.turns(|_, turn, _| turn.r == *VOLATILITY.end())
    }),
    ("figures: each is 0", |w| {
        w.turns(|before, turn, _| [turn.r, before.s, turn.t] == [0; 3])
    }),
    ("figures: from a volatility of 0", |w| {
        w.turns(|before, turn, _| before.s == 0 && turn.r > 0)
    }),
    ("figures: a volatility of 100 per cent", |w| {
        w.turns(|_, _, after| after.s == *VOLATILITY.end())
    }),
    (
        "figures: x between the volatility and a greater move",
        |w| w.turns(|before, turn, _| before.s < turn.x && turn.x < turn.r),
    ),
    ("figures: x between the volatility and a lesser move", |w| {
        w.turns(|before, turn, _| turn.r < turn.x && turn.x < before.s)
    }),
    ("figures: no replacement, r at the last rate", |w| {
        w.moves(true, |r, rate| r == rate && r > 0)
    }),
    ("figures: a replacement, r one above the last rate", |w| {
        w.moves(true, |r, rate| r == rate + 1)
    }),
    ("figures: no replacement, r above the last rate", |w| {
        w.moves(false, |r, rate| r > rate)
    }),
    ("figures: the replacement loses", |w| {
        w.volatilities().map_or(false, |(x, y)| y < x)
    }),
    ("figures: the replacement wins, one holiday", |w| {
        w.asked.days_between == 1
            && w.turns(|_, turn, _| matches!(turn.chosen, Chosen::Replacement(_)))
    }),
    ("figures: the replacement wins, t not that of s", |w| {
        w.turns(|before, turn, after| {
            let is_replaced = matches!(turn.chosen, Chosen::Replacement(_));
            is_replaced && turn.t != target(&before.statics, after.s)
        })
    }),
    ("figures: t of six digits", |w| {
        w.turns(|_, turn, _| turn.t >= TARGET_MAX)
    }),
    ("figures: t above S_max", |w| {
        w.turns(|before, turn, _| turn.t > before.statics.s_max)
    }),
    ("figures: the tentative rate is not t", |w| {
        w.turns(|_, turn, after| turn.t != after.tentative)
    }),
    ("rose: t one step above", |w| {
        w.turns(|before, turn, _| turn.t == before.tentative + before.statics.step)
    }),
    ("rose: t far above", |w| {
        w.turns(|before, turn, _| turn.t > before.tentative + before.statics.step)
    }),
    ("level: t at the tentative rate", |w| {
        w.turns(|before, turn, _| turn.t == before.tentative)
    }),
    ("level: t at the tentative rate, the wait over", |w| {
        w.turns(|before, turn, _| {
            turn.t == before.tentative && before.age + 1 >= before.statics.wait
        })
    }),
    ("fell: t one step below, the wait just over", |w| {
        w.turns(|before, turn, _| {
            turn.t == before.tentative - before.statics.step
                && before.age + 1 == before.statics.wait
        })
    }),
    ("fell: t far below", |w| {
        w.turns(|before, turn, _| {
            turn.t < before.tentative - before.statics.step && before.age + 1 >= before.statics.wait
        })
    }),
    ("waited: t one step below, a day to wait", |w| {
        w.turns(|before, turn, _| {
            turn.t == before.tentative - before.statics.step
                && before.age + 2 == before.statics.wait
        })
    }),
    ("waited: t far below", |w| {
        w.turns(|before, turn, _| {
            turn.t < before.tentative - before.statics.step && before.age + 1 < before.statics.wait
        })
    }),
    ("isEWMA no", |w| w.after.is_some() && !w.is_ewma()),
    ("isEWMA no, and the minimum covers as the least", |w| {
        !w.is_ewma() && w.levels[0].contains(&Level::Requirement)
    }),
    ("isEWMA no, and the minimum is the maximum", |w| {
        !w.is_ewma() && w.levels[0].contains(&Level::Maximum)
    }),
    ("isEWMA no, and the move would be refused", |w| {
        let after = w.after.filter(|_| !w.is_ewma());
        let too_great = |after: Record| {
            let before = w.before.map_or(after, |before| before);
            !VOLATILITY.contains(&crate::rates::price_move(after.p1, before.p1, before.p2))
        };
        after.map_or(false, too_great)
    }),
    ("6: the first row alone", |w| {
        w.is_6(Fault::Row(1)) && w.out_of_range == [0] && w.terms_out_of_range.is_empty()
    }),
    ("6: a middle row alone", |w| {
        let rows = w.asked.rows.len() / ROW;
        let is_middle = matches!(w.out_of_range[..], [row] if row > 0 && row + 1 < rows);
        w.is_length() && is_middle && w.terms_out_of_range.is_empty()
    }),
    ("6: the sixteenth row alone", |w| {
        w.is_6(Fault::Row(16)) && w.terms_out_of_range.is_empty()
    }),
    ("6: two rows", |w| {
        w.is_length() && w.out_of_range.len() == 2
    }),
    ("6: a row and a term", |w| {
        w.is_length() && !w.out_of_range.is_empty() && !w.terms_out_of_range.is_empty()
    }),
    ("6: a row and the holidays", |w| {
        w.is_length() && !w.out_of_range.is_empty() && w.asked.days_between > 30
    }),
    ("6: a row and a crossed row before it", |w| {
        let crossed = crossed_rows(&w.asked.rows).next();
        w.is_length() && crossed.is_some() && crossed < w.out_of_range.first().copied()
    }),
    ("6: term 0 alone", |w| {
        w.is_6(Fault::Term(0)) && w.terms_out_of_range == [0]
    }),
    ("6: term 1 alone", |w| {
        w.is_6(Fault::Term(1)) && w.terms_out_of_range == [1]
    }),
    ("6: term 2 alone", |w| {
        w.is_6(Fault::Term(2)) && w.terms_out_of_range == [2]
    }),
    ("6: terms 1 and 2", |w| {
        w.is_6(Fault::Term(1)) && w.terms_out_of_range == [1, 2]
    }),
    ("6: a term by its order alone", |w| {
        let mut terms = w.asked.terms.iter();
        terms.any(|term| term.rrcl == term.rrch + 1) && matches!(w.why, Err((_, Fault::Term(_))))
    }),
    ("6: the length wrong, a row and a term", |w| {
        !w.is_length() && !w.out_of_range.is_empty() && matches!(w.why, Err((_, Fault::Term(_))))
    }),
    ("6: the length wrong, and a row", |w| {
        !w.is_length() && !w.out_of_range.is_empty() && w.is_6(Fault::None)
    }),
    ("6: seventeen rows, and one out of range", |w| {
        w.asked.rows.len() == 17 * ROW && !w.out_of_range.is_empty() && w.is_6(Fault::None)
    }),
    ("6: the length wrong alone", |w| {
        !w.is_length() && w.out_of_range.is_empty() && w.is_6(Fault::None)
    }),
    ("6: none, by the holidays behind", |w| {
        w.is_6(Fault::None) && w.is_length() && w.asked.days_between > 30
    }),
    ("6: none, by the holidays ahead", |w| {
        w.is_6(Fault::None) && w.is_length() && w.asked.days_closed > 10
    }),
    ("16: the first row alone", |w| w.crossed() == [0]),
    ("16: the sixteenth row alone", |w| w.crossed() == [15]),
    ("16: two rows, neither the first", |w| {
        let crossed = w.crossed();
        crossed.len() == 2 && crossed[0] > 0
    }),
    ("7: the first row alone", |w| w.unfit() == [0]),
    (
        "7: a later row alone",
        |w| matches!(w.unfit()[..], [row] if row > 0),
    ),
    ("7: two rows", |w| w.unfit().len() > 1),
    ("7: by its volume", |w| w.is_unfit_by_volume()),
    ("7: none", |w| {
        w.is_at(Refusal::EvaluationOutOfRange, Fault::None) && !w.asked.rows.is_empty()
    }),
    ("9: term 0 alone", |w| w.crossed_terms() == [0]),
    ("9: term 2 alone", |w| w.crossed_terms() == [2]),
    ("9: terms 1 and 2", |w| w.crossed_terms() == [1, 2]),
    ("1: none, though a row and a term are out of range", |w| {
        let both = !w.out_of_range.is_empty() && !w.terms_out_of_range.is_empty();
        w.is_at(Refusal::NoSuchId, Fault::None) && both
    }),
    ("5: none, though a row does not fit", |w| {
        let unfit = w.is_length() && w.out_of_range.is_empty();
        let is_late = w.is_at(Refusal::DayNotAfterLast, Fault::None) && w.is_late();
        is_late && unfit && unfit_rows(&w.asked.rows).next().is_some()
    }),
];

/// Counts the edges that a script meets.
pub fn count_why(input: impl BufRead) -> io::Result<Count> {
    let edges = edges();
    let mut tally = Tally::new(edges.iter().map(|(name, _)| name.clone()));
    evaluations(input, |seen| {
        let why = SeenWhy::of(&seen.asked, seen.before.as_ref());
        for (name, is_met) in &edges {
            if is_met(&why) {
                tally.meet(name);
            }
        }
    })?;
    Ok(tally.count())
}
