//! What random days have to meet: every refusal, and both sides of every choice of the tuned version.

use reference::ewma::Chosen;
use reference::outside::Outside;
use reference::rates::turn;
use reference::record::Record;
use reference::refusal::Refusal;
use reference::security::{day_move, Day};

/// A day that is judged: the record before, the day, and the answer.
pub struct Judged<'a> {
    pub before: &'a Record,
    pub day: &'a Day<'a>,
    pub answer: &'a Result<Record, Refusal>,
}

/// An edge: what it is called, and whether a day meets it.
type Edge = (&'static str, fn(&Judged) -> bool);

pub const EDGES: [Edge; 33] = [
    ("refused 1", |judged| judged.is_refused(Refusal::NoSuchId)),
    ("refused 6", |judged| {
        judged.is_refused(Refusal::ValueOutOfRange)
    }),
    ("refused 16", |judged| {
        judged.is_refused(Refusal::CrossedRow)
    }),
    ("refused 5", |judged| {
        judged.is_refused(Refusal::DayNotAfterLast)
    }),
    ("refused 7", |judged| {
        judged.is_refused(Refusal::EvaluationOutOfRange)
    }),
    ("refused 8", |judged| {
        judged.is_refused(Refusal::MoveTooGreat)
    }),
    ("refused 9", |judged| {
        judged.is_refused(Refusal::BandCrossed)
    }),
    ("grid 1", |judged| {
        judged.makes(|after| after.statics.grid() == 1)
    }),
    ("grid 10", |judged| {
        judged.makes(|after| after.statics.grid() == 10)
    }),
    ("grid 100", |judged| {
        judged.makes(|after| after.statics.grid() == 100)
    }),
    ("no rows", |judged| {
        judged.is_done() && judged.day.rows.is_empty()
    }),
    ("16 rows", |judged| {
        judged.is_done() && judged.day.rows.len() == 112
    }),
    ("isEWMA yes", |judged| {
        judged.makes(|after| after.statics.is_ewma)
    }),
    ("isEWMA no", |judged| {
        judged.makes(|after| !after.statics.is_ewma)
    }),
    ("Monitoring yes", |judged| {
        judged.makes(|after| after.statics.monitoring)
    }),
    ("Monitoring no", |judged| {
        judged.makes(|after| !after.statics.monitoring)
    }),
    ("outside prices taken", |judged| {
        judged.is_done() && judged.before.taken_outside() != Outside::NONE
    }),
    ("outside prices left", |judged| {
        judged.makes(|after| !after.statics.use_external && after.outside != Outside::NONE)
    }),
    ("a later row", |judged| judged.has_row(|row| row[0] > 0)),
    ("a foreign row today", |judged| {
        judged.has_row(|row| row[0] == 0 && row[1] != 10_000)
    }),
    ("a missing price", |judged| {
        judged.has_row(|row| row[3..6].contains(&0))
    }),
    ("a tie today", |judged| {
        judged.has_row(|row| row[0] == 0 && ties(row))
    }),
    ("a tie later", |judged| {
        judged.has_row(|row| row[0] > 0 && ties(row))
    }),
    ("a repo band of some days", |judged| {
        judged.makes(|after| after.terms[0].days * after.terms[0].rrch != 0)
    }),
    ("a replacement", |judged| judged.is_replaced()),
    ("the rate rose", |judged| {
        judged.makes(|after| after.tentative > judged.before.tentative)
    }),
    ("the rate fell", |judged| {
        judged.makes(|after| after.tentative < judged.before.tentative)
    }),
    ("a rate at S_max", |judged| {
        judged.makes(|after| after.rates[2] == after.statics.s_max)
    }),
    ("a rate at its minimum", |judged| {
        judged.makes(|after| after.rates[0] == after.statics.minima[0])
    }),
    ("a rate between", |judged| judged.makes(is_between)),
    ("a wide limit", |judged| {
        judged.makes(|after| after.statics.monitoring && after.p1 > 400_000_000)
    }),
    ("a narrow limit", |judged| {
        judged.makes(|after| after.statics.monitoring && after.p1 < 4_000_000)
    }),
    ("no lower band", |judged| {
        judged.makes(|after| after.terms[0].lower == 0)
    }),
];

impl Judged<'_> {
    fn is_refused(&self, by: Refusal) -> bool {
        *self.answer == Err(by)
    }

    fn is_done(&self) -> bool {
        self.answer.is_ok()
    }

    fn makes(&self, is_so: impl Fn(&Record) -> bool) -> bool {
        self.answer.as_ref().map_or(false, is_so)
    }

    fn has_row(&self, is_so: impl Fn(&[i64]) -> bool) -> bool {
        self.is_done() && self.day.rows.chunks_exact(7).any(is_so)
    }

    /// Whether the replacement is chosen over the weighed volatility.
    fn is_replaced(&self) -> bool {
        self.makes(|after| {
            let moved = day_move(self.before, self.day, after.p1);
            let turn = turn(&after.statics, &self.before.volatility(), &moved);
            let is_chosen = matches!(turn.map(|turn| turn.chosen), Ok(Chosen::Replacement(_)));
            is_chosen && after.statics.is_ewma
        })
    }
}

/// Whether the row's close lies halfway between two units today.
fn ties(row: &[i64]) -> bool {
    let [days, central_rate, repo_rate, close] = [row[0], row[1], row[2], row[3]].map(i128::from);
    let divisor = 3_650_000 + days * repo_rate;
    2 * 365 * central_rate * close % (2 * divisor) == divisor
}

/// Whether the requirement of the second level decides its rate.
fn is_between(after: &Record) -> bool {
    after.statics.minima[1] < after.rates[1] && after.rates[1] < after.statics.s_max
}
