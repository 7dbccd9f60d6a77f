//! The text protocol of the evening: one call a line, one answer a call.

use std::fmt;
use std::io::{self, BufRead, Write};

use crate::bond;
use crate::desk;
use crate::interest::{self, RepoBand, Sheet, Worked};
use crate::kept::Kept;
use crate::record::{self, Record};
use crate::refusal::Refusal;
use crate::security::{Admission, Alerts, Day, Quote, RepoTerm};
use crate::slices::split_first;
use crate::words::{number_or_pair, serve, Word, EVENING};

/// The number of a call that is done.
const DONE: i64 = 0;

/// The most figures that follow an answer's number.
const FIGURES_MAX: usize = if record::FIGURES > interest::FIGURES_MAX {
    record::FIGURES
} else {
    interest::FIGURES_MAX
};

/// The band of a pair that is not kept: no range holds it, so the day is out of
/// range in the usual place.
const NOT_KEPT: RepoBand = RepoBand {
    rrcl: i64::MAX,
    rrch: i64::MIN,
};

/// The figures of one answer: the number, then what the call gives.
#[derive(Clone, Copy, Debug)]
pub struct Answer {
    figures: [i64; 1 + FIGURES_MAX],
    count: usize,
}

impl Answer {
    fn new(number: i64, rest: &[i64]) -> Answer {
        let mut figures = [0; 1 + FIGURES_MAX];
        figures[0] = number;
        figures[1..=rest.len()].copy_from_slice(rest);
        Answer {
            figures,
            count: 1 + rest.len(),
        }
    }

    /// The number a member sees.
    pub fn number(&self) -> i64 {
        self.figures[0]
    }

    pub fn figures(&self) -> &[i64] {
        &self.figures[..self.count]
    }
}

impl fmt::Display for Answer {
    fn fmt(&self, f: &mut fmt::Formatter<'_>) -> fmt::Result {
        write!(f, "{}", self.number())?;
        self.figures()[1..]
            .iter()
            .try_for_each(|figure| write!(f, " {figure}"))
    }
}

impl From<Refusal> for Answer {
    fn from(refusal: Refusal) -> Answer {
        Answer::new(refusal.number(), &[])
    }
}

impl From<()> for Answer {
    fn from((): ()) -> Answer {
        Answer::new(DONE, &[])
    }
}

impl From<Alerts> for Answer {
    fn from(alerts: Alerts) -> Answer {
        Answer::new(DONE, &[i64::from(alerts.top), i64::from(alerts.bottom)])
    }
}

impl From<&Record> for Answer {
    fn from(record: &Record) -> Answer {
        Answer::new(DONE, &record.figures())
    }
}

impl From<Worked> for Answer {
    fn from(worked: Worked) -> Answer {
        Answer::new(DONE, &worked.numbers())
    }
}

impl From<bond::Worked> for Answer {
    fn from(worked: bond::Worked) -> Answer {
        Answer::new(DONE, &worked.numbers())
    }
}

/// A call's result, done or refused, as an answer.
fn answered<T: Into<Answer>>(result: Result<T, Refusal>) -> Answer {
    result.map_or_else(Answer::from, T::into)
}

/// Performs the call that a word and those after it name; none where they name
/// no call.
pub fn perform(
    table: &mut [Record],
    kept: &mut Kept,
    verb: &[u8],
    words: &[Word],
) -> Option<Answer> {
    match verb {
        b"evaluate" => return evaluate(table, kept, words),
        b"bond" => return work_bond(kept, words),
        _ => {}
    }
    let numbers = numbers(words)?;
    match (verb, &numbers[..]) {
        (b"admit", numbers) => Some(answered(desk::admit(table, &admission(numbers)?))),
        (b"quote", &[id, second, term, bid, ask]) => {
            let quote = Quote {
                second,
                term,
                bid,
                ask,
            };
            Some(answered(desk::quote(table, id, &quote)))
        }
        (b"move", &[id, side]) => Some(answered(desk::move_side(table, id, side))),
        (b"open", &[id]) => Some(answered(desk::open(table, id))),
        (b"outside", &[id, bid, ask]) => Some(answered(desk::send(table, id, bid, ask))),
        (b"notice", &[id, side, bits]) => Some(answered(desk::notice(table, id, side, bits))),
        (b"withdraw", &[id]) => Some(answered(desk::withdraw(table, id))),
        (b"read", &[id]) => Some(answered(desk::read(table, id))),
        (b"interest", numbers) => {
            let (values, maturities) = split_first(numbers)?;
            Some(answered(work(
                kept,
                Sheet::from_numbers(values, maturities),
            )))
        }
        _ => None,
    }
}

/// Words that are all numbers.
pub fn numbers(words: &[Word]) -> Option<Vec<i64>> {
    words.iter().map(|word| word.number()).collect()
}

/// Works a sheet out and keeps its band; a refused one changes nothing.
fn work(kept: &mut Kept, sheet: Result<Sheet, Refusal>) -> Result<Worked, Refusal> {
    let sheet = sheet?;
    let worked = sheet.worked();
    kept.keep(sheet.pair, worked.band);
    Ok(worked)
}

/// `ID DAY P1 P2 S TENTATIVE` and the statics.
pub fn admission(numbers: &[i64]) -> Option<Admission> {
    let (&[id, day, p1, p2, s, tentative], statics) = split_first(numbers)?;
    Some(Admission {
        id,
        day,
        p1,
        p2,
        s,
        tentative,
        statics: statics.try_into().ok()?,
    })
}

/// What an evaluation is asked: `ID DAY B M`, the three terms, and the row
/// figures.
#[derive(Clone, Debug)]
pub struct Asked {
    pub id: i64,
    pub number: i64,
    pub days_between: i64,
    pub days_closed: i64,
    pub terms: [RepoTerm; 3],
    pub rows: Vec<i64>,
}

impl Asked {
    /// What the words of an evaluation ask; none where they are no call.
    pub fn from_words(kept: &Kept, words: &[Word]) -> Option<Asked> {
        let (head, rest) = split_first::<4, _>(words)?;
        let (&[id, number, days_between, days_closed], _) = split_first(&numbers(head)?)?;
        let (first, rest) = term(kept, rest)?;
        let (second, rest) = term(kept, rest)?;
        let (third, rest) = term(kept, rest)?;
        Some(Asked {
            id,
            number,
            days_between,
            days_closed,
            terms: [first, second, third],
            rows: numbers(rest)?,
        })
    }

    pub fn day(&self) -> Day<'_> {
        Day {
            number: self.number,
            days_between: self.days_between,
            days_closed: self.days_closed,
            terms: self.terms,
            rows: &self.rows,
        }
    }
}

fn evaluate(table: &mut [Record], kept: &Kept, words: &[Word]) -> Option<Answer> {
    let asked = Asked::from_words(kept, words)?;
    Some(answered(desk::evaluate(table, asked.id, &asked.day())))
}

/// A bond's numbers, its terms' worked pairs taken: `M NET FACE ACCRUED REPO S
/// TENTATIVE AGE`, the three terms, the statics that a bond uses and its cash
/// flows. None where the words are no call.
pub fn bond_numbers(kept: &Kept, words: &[Word]) -> Option<Vec<i64>> {
    let (own, mut rest) = split_first::<{ bond::TERMS }, _>(words)?;
    let mut found = numbers(own)?;
    for _ in 0..3 {
        let (term, after) = term(kept, rest)?;
        found.extend([term.days, term.rrcl, term.rrch]);
        rest = after;
    }
    found.extend(numbers(rest)?);
    (found.len() >= bond::VALUES).then_some(found)
}

fn work_bond(kept: &Kept, words: &[Word]) -> Option<Answer> {
    let numbers = bond_numbers(kept, words)?;
    let (values, flows) = split_first(&numbers)?;
    Some(answered(bond::worked(values, flows)))
}

/// A term, `K RRCL RRCH` or `K YM/YN`, and the words after it.
fn term<'w>(kept: &Kept, words: &'w [Word]) -> Option<(RepoTerm, &'w [Word])> {
    let (days, band, rest) = match *words {
        [Word::Number(days), Word::Pair(pair), ref rest @ ..] => {
            (days, kept.band(pair).unwrap_or(NOT_KEPT), rest)
        }
        [Word::Number(days), Word::Number(rrcl), Word::Number(rrch), ref rest @ ..] => {
            (days, RepoBand { rrcl, rrch }, rest)
        }
        _ => return None,
    };
    let RepoBand { rrcl, rrch } = band;
    Some((RepoTerm { days, rrcl, rrch }, rest))
}

/// The whole evening: a fresh table of 512 slots, no band kept, answers to
/// every line.
pub fn evening(input: impl BufRead, output: impl Write) -> io::Result<()> {
    let mut table = desk::fresh_table(desk::SLOTS_MAX);
    let mut kept = Kept::default();
    serve(input, output, &EVENING, number_or_pair, |verb, words| {
        perform(&mut table, &mut kept, verb, words)
    })
}
