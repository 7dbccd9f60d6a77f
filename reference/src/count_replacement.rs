//! Counts how often a script of the evening meets each edge of W-202: the
//! replacement beside the weighed volatility, and the tentative rate that it
//! gives.

use std::io::{self, BufRead};

use crate::count::Count;
use crate::ewma;
use crate::rates::{move_target, price_move};
use crate::record::Record;
use crate::replay::{evaluations, Evaluation};
use crate::tally::{names, Edge, Tally};
use crate::units::{MILLIONTHS_IN_BP, VOLATILITY};

/// An accepted evaluation, with its move and both volatilities.
struct SeenMove {
    before: Record,
    after: Record,
    days_between: i64,
    /// The move, by (e).
    r: i64,
    /// The weighed volatility x.
    x: i64,
    /// The replacement y, where it is asked for.
    y: Option<i64>,
}

impl SeenMove {
    /// The move of an accepted evaluation with isEWMA yes.
    fn of(seen: &Evaluation) -> Option<SeenMove> {
        let (before, after) = (seen.before?, seen.after?);
        if seen.number != 0 || !before.statics.is_ewma {
            return None;
        }
        let model = before.statics.model();
        let days_between = seen.asked.days_between;
        let r = price_move(after.p1, before.p1, before.p2);
        let last_rate = MILLIONTHS_IN_BP * before.rates[0];
        Some(SeenMove {
            before,
            after,
            days_between,
            r,
            x: ewma::weighed(&model, before.s, r, days_between),
            y: ewma::replacement(&model, r, last_rate, days_between),
        })
    }

    /// The replacement stands so far above the weighed volatility.
    fn is_above(&self, by: i64) -> bool {
        self.y == Some(self.x + by)
    }

    fn is_replaced(&self) -> bool {
        self.y.map_or(false, |y| y > self.x)
    }

    /// t from the move.
    fn of_move(&self) -> i64 {
        move_target(&self.before.statics, self.r)
    }

    /// How many steps t from the move stands above S_max.
    fn past_maximum(&self) -> i64 {
        (self.of_move() - self.before.statics.s_max) / self.step()
    }

    fn step(&self) -> i64 {
        self.before.statics.step
    }

    /// Whether the move and the ordinary rule give two rates.
    fn is_told_apart(&self) -> bool {
        let model = self.before.statics.model();
        let ordinary = ewma::target(&model, self.after.s, MILLIONTHS_IN_BP);
        let stepped = |t: i64| {
            let before = self.before.volatility();
            ewma::stepped(&model, self.after.s, t, &before)
        };
        stepped(ordinary) != stepped(self.of_move())
    }

    /// How far r stands above the greatest multiple of 100·h that it reaches.
    fn past_multiple(&self) -> i64 {
        self.r % self.multiple()
    }

    fn multiple(&self) -> i64 {
        MILLIONTHS_IN_BP * self.step()
    }

    /// How far r stands above 100·S_1.
    fn past_rate(&self) -> i64 {
        self.r - MILLIONTHS_IN_BP * self.before.rates[0]
    }

    /// How far the tentative rate rose.
    fn rise(&self) -> i64 {
        self.after.tentative - self.before.tentative
    }
}

fn edges() -> Vec<Edge<SeenMove>> {
    vec![
        ("replacement one below the weighed volatility", |m| {
            m.is_above(-1)
        }),
        ("replacement equal to the weighed volatility", |m| {
            m.is_above(0)
        }),
        ("replacement one above the weighed volatility", |m| {
            m.is_above(1)
        }),
        ("one below, and the move would tell", |m| {
            m.is_above(-1) && m.is_told_apart()
        }),
        ("equal, and the move would tell", |m| {
            m.is_above(0) && m.is_told_apart()
        }),
        ("one above, and the ordinary rule would tell", |m| {
            m.is_above(1) && m.is_told_apart()
        }),
        ("replaced, t a step below S_max", |m| {
            m.is_replaced() && m.past_maximum() == -1
        }),
        ("replaced, t at S_max", |m| {
            m.is_replaced() && m.past_maximum() == 0
        }),
        ("replaced, t a step above S_max", |m| {
            m.is_replaced() && m.past_maximum() == 1
        }),
        ("replaced, rises above S_max", |m| {
            m.is_replaced() && m.past_maximum() > 0 && m.rise() > 0
        }),
        ("replaced, r one below a multiple of 100·h", |m| {
            m.is_replaced() && m.past_multiple() == m.multiple() - 1
        }),
        ("replaced, r a multiple of 100·h", |m| {
            m.is_replaced() && m.past_multiple() == 0
        }),
        ("replaced, r one above a multiple of 100·h", |m| {
            m.is_replaced() && m.past_multiple() == 1
        }),
        ("replaced, rises to the move's t below the ordinary", |m| {
            m.is_replaced() && m.rise() > 0 && m.is_told_apart()
        }),
        ("replaced, stays where the ordinary t rises", |m| {
            m.is_replaced() && m.rise() == 0 && m.is_told_apart()
        }),
        ("replaced, falls where the ordinary t stays", |m| {
            m.is_replaced() && m.rise() < 0 && m.is_told_apart()
        }),
        ("replaced, stays", |m| m.is_replaced() && m.rise() == 0),
        ("replaced, falls by a step", |m| {
            m.is_replaced() && m.rise() == -m.step()
        }),
        ("replaced after one holiday", |m| {
            m.is_replaced() && m.days_between == 1
        }),
        ("r above 100·S_1 after two holidays", |m| {
            m.days_between == 2 && m.past_rate() > 0
        }),
        ("r at 100·S_1", |m| {
            m.days_between < 2 && m.past_rate() == 0 && m.r > 0
        }),
        ("replaced, r one above 100·S_1", |m| {
            m.is_replaced() && m.past_rate() == 1
        }),
        ("replaced, r at its most", |m| {
            m.is_replaced() && m.r == *VOLATILITY.end()
        }),
    ]
}

/// Counts the edges that a script meets.
pub fn count_replacement(input: impl BufRead) -> io::Result<Count> {
    let edges = edges();
    let mut tally = Tally::new(names(self::edges()));
    evaluations(input, |seen| {
        if let Some(seen) = SeenMove::of(seen) {
            tally.look(&edges, &seen);
        }
    })?;
    Ok(tally.count())
}
