//! Counts how often a script of the evening meets each edge of W-205: a row's
//! bid beside its ask, where the crossed row stands, and what else is wrong.

use std::io::{self, BufRead};

use crate::count::Count;
use crate::evaluation::{crossed_rows, sides_in_roubles, ROW, ROWS_MAX};
use crate::refusal::Refusal;
use crate::replay::{evaluations, Evaluation};
use crate::security::worked_out;
use crate::tally::{names, Edge, Tally};
use crate::units::ROW_PRICE;

/// Places of a row's sides.
const BID: usize = 4;
const ASK: usize = 5;

/// The rows of a full day.
const ROWS: usize = ROWS_MAX / ROW;

impl Evaluation {
    fn is_accepted(&self) -> bool {
        self.number == 0
    }

    fn is_refused(&self, refusal: Refusal) -> bool {
        self.number == refusal.number()
    }

    /// Refused for a crossed row.
    fn is_16(&self) -> bool {
        self.is_refused(Refusal::CrossedRow)
    }

    fn rows(&self) -> usize {
        self.asked.rows.len() / ROW
    }

    /// Whether the bid of some row stands so far above its ask, both present.
    fn has_bid_above(&self, by: i64) -> bool {
        self.sides()
            .any(|[bid, ask]| bid > 0 && ask > 0 && bid.checked_sub(ask) == Some(by))
    }

    /// The bid and the ask of each row.
    fn sides(&self) -> impl Iterator<Item = [i64; 2]> + '_ {
        let rows = self.asked.rows.chunks_exact(ROW);
        rows.map(|row| [row[BID], row[ASK]])
    }

    /// The places of the crossed rows.
    fn crossed(&self) -> Vec<usize> {
        crossed_rows(&self.asked.rows).collect()
    }

    fn is_crossed(&self) -> bool {
        !self.crossed().is_empty()
    }

    fn is_late(&self) -> bool {
        self.before
            .map_or(false, |record| self.asked.number <= record.last_day())
    }

    /// What would be answered but for the crossed row and the day number.
    fn otherwise(&self) -> Option<i64> {
        let day = self.asked.day();
        let record = self.before.filter(|_| day.is_in_range())?;
        let worked = worked_out(&record, &day);
        Some(worked.map_or_else(Refusal::number, |_| 0))
    }

    /// Refused 16 in time, where otherwise the answer would be another.
    fn is_16_before(&self, number: i64) -> bool {
        self.is_16() && !self.is_late() && self.otherwise() == Some(number)
    }

    /// BID above ASK among rows in roubles, none of them crossed.
    fn is_crossed_across(&self) -> bool {
        matches!(sides_in_roubles(&self.asked.rows), Some((Some(bid), Some(ask))) if bid > ask)
    }
}

fn edges() -> Vec<Edge<Evaluation>> {
    vec![
        ("bid one below the ask", |e| {
            e.is_accepted() && e.has_bid_above(-1)
        }),
        ("bid equal to the ask", |e| {
            e.is_accepted() && e.has_bid_above(0)
        }),
        ("16: bid one above the ask", |e| {
            e.is_16() && e.has_bid_above(1)
        }),
        ("16: bid far above the ask", |e| {
            e.is_16() && e.sides().any(|[bid, ask]| ask > 0 && bid > ask + 100)
        }),
        ("bid missing, ask present", |e| {
            e.is_accepted() && e.sides().any(|[bid, ask]| bid == 0 && ask > 0)
        }),
        ("ask missing, bid present", |e| {
            e.is_accepted() && e.sides().any(|[bid, ask]| ask == 0 && bid > 0)
        }),
        ("bid and ask equal at their most", |e| {
            let most = *ROW_PRICE.end();
            !e.is_16() && e.sides().any(|sides| sides == [most, most])
        }),
        ("16: bid at its most", |e| {
            e.is_16() && e.sides().any(|[bid, _]| bid == *ROW_PRICE.end())
        }),
        ("16: the only row", |e| {
            e.is_16() && e.rows() == 1 && e.crossed() == [0]
        }),
        ("16: the first of several rows alone", |e| {
            e.is_16() && e.rows() > 2 && e.crossed() == [0]
        }),
        ("16: a middle row alone", |e| {
            let last = e.rows().saturating_sub(1);
            e.is_16() && matches!(e.crossed()[..], [row] if row > 0 && row < last)
        }),
        ("16: the last of several rows alone", |e| {
            e.is_16() && e.rows() > 2 && e.crossed() == [e.rows() - 1]
        }),
        ("16: the sixteenth row alone", |e| {
            e.is_16() && e.crossed() == [ROWS - 1]
        }),
        ("16: two rows", |e| e.is_16() && e.crossed().len() > 1),
        ("16: in roubles bid and ask are equal", |e| {
            let equal = |row: &[i64]| {
                let sides = sides_in_roubles(row);
                matches!(sides, Some((Some(bid), Some(ask))) if bid == ask)
            };
            let mut crossed = e.crossed().into_iter();
            e.is_16() && crossed.all(|row| equal(&e.asked.rows[ROW * row..ROW * (row + 1)]))
        }),
        ("16: otherwise accepted", |e| e.is_16_before(0)),
        ("1 before 16", |e| {
            e.is_refused(Refusal::NoSuchId) && e.asked.day().is_in_range() && e.is_crossed()
        }),
        ("6 before 16", |e| {
            e.is_refused(Refusal::ValueOutOfRange) && e.is_crossed()
        }),
        ("6 before 16, the rows alone in range", |e| {
            let rows = crate::evaluation::rows_are_in_range(&e.asked.rows);
            e.is_refused(Refusal::ValueOutOfRange) && e.is_crossed() && rows
        }),
        ("6 before 16, the length wrong", |e| {
            let length = e.asked.rows.len();
            e.is_refused(Refusal::ValueOutOfRange) && e.is_crossed() && length % ROW != 0
        }),
        ("16 before 5", |e| e.is_16() && e.is_late()),
        ("16 before 7", |e| {
            e.is_16_before(Refusal::EvaluationOutOfRange.number())
        }),
        ("16 before 8", |e| {
            e.is_16_before(Refusal::MoveTooGreat.number())
        }),
        ("16 before 9", |e| {
            e.is_16_before(Refusal::BandCrossed.number())
        }),
        ("BID above ASK across rows", |e| {
            e.is_accepted() && e.is_crossed_across()
        }),
    ]
}

/// Counts the edges that a script meets.
pub fn count_crossed(input: impl BufRead) -> io::Result<Count> {
    let edges = edges();
    let mut tally = Tally::new(names(self::edges()));
    evaluations(input, |seen| tally.look(&edges, seen))?;
    Ok(tally.count())
}
