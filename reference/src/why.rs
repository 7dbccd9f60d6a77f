//! Why an evaluation is answered as it is (W-207): the figure that set each
//! figure of an accepted one, with the figures that decided, and where a refused
//! one is at fault. Each reason is its condition, and the first that holds is
//! named.

use std::fmt;
use std::io::{self, BufRead, Write};

use crate::desk::{self, fresh_table, SLOTS_MAX};
use crate::evaluation::{
    crossed_rows, is_row_length, rows_out_of_range, settled, unfit_rows, Settled,
};
use crate::ewma::Chosen;
use crate::field;
use crate::kept::Kept;
use crate::protocol::{admission, numbers, perform, Answer, Asked};
use crate::rates::{least_covering, turn, Turn};
use crate::record::{Record, Term};
use crate::refusal::Refusal;
use crate::security::{day_move, evaluated, made, Day};
use crate::statics::Statics;
use crate::words::{number_or_pair, serve, Word, EVENING};

/// Non-trading days above which a move has no weight.
const HOLIDAYS_MAX: i64 = 1;

/// Which figure set the price.
#[derive(Clone, Copy, Debug, PartialEq, Eq)]
pub enum Price {
    Close,
    Bid,
    Ask,
    Yesterday,
}

/// Which weight a move has.
#[derive(Clone, Copy, Debug, PartialEq, Eq)]
pub enum Weight {
    Zero,
    Up,
    Down,
}

/// What became of the tentative rate.
#[derive(Clone, Copy, Debug, PartialEq, Eq)]
pub enum Tentative {
    Rose,
    Fell,
    Waited,
    Level,
}

/// What set a level's rate.
#[derive(Clone, Copy, Debug, PartialEq, Eq)]
pub enum Level {
    Requirement,
    Minimum,
    Maximum,
}

/// The figures that decided about the volatility and the tentative rate.
#[derive(Clone, Copy, Debug, PartialEq, Eq)]
pub struct Figures {
    /// The move.
    pub r: i64,
    /// The volatility before.
    pub s_before: i64,
    /// The root of the weighed mean.
    pub x: i64,
    /// The replacement; 0 where its condition does not hold.
    pub y: i64,
    /// The volatility now.
    pub s: i64,
    /// The least step, before any wait.
    pub t: i64,
}

/// The reasons of the volatility model.
#[derive(Clone, Copy, Debug, PartialEq, Eq)]
pub struct Model {
    pub weight: Weight,
    /// Whether the replacement won.
    pub is_replaced: bool,
    pub tentative: Tentative,
    pub figures: Figures,
}

/// Why an accepted evaluation has its figures.
#[derive(Clone, Copy, Debug, PartialEq, Eq)]
pub struct Reasons {
    pub price: Price,
    /// None with isEWMA no.
    pub model: Option<Model>,
    pub levels: [Level; 3],
}

/// What is at fault in a refused evaluation.
#[derive(Clone, Copy, Debug, PartialEq, Eq)]
pub enum Fault {
    /// A row, counted from 1.
    Row(usize),
    /// A term, 0, 1 or 2.
    Term(usize),
    None,
}

/// Why an evaluation is answered as it is.
pub type Why = Result<Reasons, (Refusal, Fault)>;

impl Price {
    /// Every reason, in its order.
    pub const ALL: [Price; 4] = [Price::Close, Price::Bid, Price::Ask, Price::Yesterday];

    /// Whether the reason's condition holds.
    pub fn holds(self, settled: &Settled, previous: i64) -> bool {
        let price = Some(settled.price);
        match self {
            Price::Close => settled.close == price,
            Price::Bid => settled.bid == price,
            Price::Ask => settled.ask == price,
            Price::Yesterday => settled.close.is_none() && settled.price == previous,
        }
    }
}

impl Weight {
    pub const ALL: [Weight; 3] = [Weight::Zero, Weight::Up, Weight::Down];

    pub fn holds(self, days_between: i64, r: i64, s: i64) -> bool {
        match self {
            Weight::Zero => days_between > HOLIDAYS_MAX,
            Weight::Up => r > s,
            Weight::Down => true,
        }
    }
}

impl Tentative {
    pub const ALL: [Tentative; 4] = [
        Tentative::Rose,
        Tentative::Fell,
        Tentative::Waited,
        Tentative::Level,
    ];

    /// Whether the reason's condition holds of a record before the day and t.
    pub fn holds(self, before: &Record, t: i64) -> bool {
        let step = before.statics.step;
        let is_below = t <= before.tentative - step;
        match self {
            Tentative::Rose => t >= before.tentative + step,
            Tentative::Fell => is_below && before.age + 1 >= before.statics.wait,
            Tentative::Waited => is_below,
            Tentative::Level => true,
        }
    }
}

impl Level {
    pub const ALL: [Level; 3] = [Level::Requirement, Level::Minimum, Level::Maximum];

    /// Whether the reason's condition holds of a level (0, 1, 2) and its rate.
    pub fn holds(self, statics: &Statics, level: usize, rate: i64, covering: Option<i64>) -> bool {
        match self {
            Level::Requirement => covering == Some(rate),
            Level::Minimum => rate == statics.minima[level],
            Level::Maximum => rate == statics.s_max,
        }
    }
}

/// The first reason that holds.
fn first<R: Copy>(reasons: &[R], holds: impl Fn(R) -> bool) -> R {
    let found = reasons.iter().copied().find(|reason| holds(*reason));
    found.expect("one of the reasons holds")
}

/// Why an evaluation of a record is answered as it is; no record is no such id.
pub fn why(record: Option<&Record>, day: &Day) -> Why {
    let record = record.ok_or((Refusal::NoSuchId, Fault::None))?;
    match evaluated(record, day) {
        Ok(after) => Ok(reasons(record, day, &after)),
        Err(refusal) => Err((refusal, fault(record, day, refusal))),
    }
}

fn reasons(before: &Record, day: &Day, after: &Record) -> Reasons {
    let statics = &before.statics;
    let outside = before.taken_outside();
    let settled = settled(day.rows, outside, before.p1).expect("the day is accepted");
    let covering = |level: usize| least_covering(statics, level, after.tentative, day.days_closed);
    Reasons {
        price: first(&Price::ALL, |reason| reason.holds(&settled, before.p1)),
        model: statics.is_ewma.then(|| model(before, day, after.p1)),
        levels: [0, 1, 2].map(|level| {
            if !statics.is_ewma {
                return Level::Minimum;
            }
            let covering = covering(level);
            let rate = after.rates[level];
            first(&Level::ALL, |reason| {
                reason.holds(statics, level, rate, covering)
            })
        }),
    }
}

fn model(before: &Record, day: &Day, p: i64) -> Model {
    let Turn { r, x, y, chosen, t } = turn_of(before, day, p);
    Model {
        weight: first(&Weight::ALL, |reason| {
            reason.holds(day.days_between, r, before.s)
        }),
        is_replaced: matches!(chosen, Chosen::Replacement(_)),
        tentative: first(&Tentative::ALL, |reason| reason.holds(before, t)),
        figures: Figures {
            r,
            s_before: before.s,
            x,
            y: y.unwrap_or(0),
            s: chosen.s(),
            t,
        },
    }
}

/// The turn of an accepted day with evaluation P.
pub fn turn_of(before: &Record, day: &Day, p: i64) -> Turn {
    let turned = turn(
        &before.statics,
        &before.volatility(),
        &day_move(before, day, p),
    );
    turned.expect("the day is accepted")
}

/// What is at fault: the first row, else the first term, else none.
fn fault(record: &Record, day: &Day, refusal: Refusal) -> Fault {
    let row = match refusal {
        Refusal::ValueOutOfRange if is_row_length(day.rows) => rows_out_of_range(day.rows).next(),
        Refusal::CrossedRow => crossed_rows(day.rows).next(),
        Refusal::EvaluationOutOfRange => unfit_rows(day.rows).next(),
        _ => None,
    };
    let term = || match refusal {
        Refusal::ValueOutOfRange => day.terms.iter().position(|term| !term.is_in_range()),
        Refusal::BandCrossed => {
            let made = made(record, day).ok()?;
            made.terms.iter().position(Term::is_crossed)
        }
        _ => None,
    };
    match row {
        Some(row) => Fault::Row(row + 1),
        None => term().map_or(Fault::None, Fault::Term),
    }
}

impl Price {
    fn word(self) -> &'static str {
        match self {
            Price::Close => "close",
            Price::Bid => "bid",
            Price::Ask => "ask",
            Price::Yesterday => "yesterday",
        }
    }
}

impl Model {
    /// The words of the weight, the replacement and the tentative rate.
    fn words(&self) -> [&'static str; 3] {
        let weight = match self.weight {
            Weight::Zero => "zero",
            Weight::Up => "up",
            Weight::Down => "down",
        };
        let replacement = if self.is_replaced { "yes" } else { "no" };
        let tentative = match self.tentative {
            Tentative::Rose => "rose",
            Tentative::Fell => "fell",
            Tentative::Waited => "waited",
            Tentative::Level => "level",
        };
        [weight, replacement, tentative]
    }
}

impl Level {
    fn word(self) -> &'static str {
        match self {
            Level::Requirement => "requirement",
            Level::Minimum => "minimum",
            Level::Maximum => "maximum",
        }
    }
}

impl fmt::Display for Reasons {
    fn fmt(&self, f: &mut fmt::Formatter<'_>) -> fmt::Result {
        let [weight, replacement, tentative] =
            self.model.map_or(["none"; 3], |model| model.words());
        write!(f, "0 price {} weight {weight}", self.price.word())?;
        write!(f, " replacement {replacement} tentative {tentative}")?;
        for (level, reason) in self.levels.iter().enumerate() {
            write!(f, " level{} {}", level + 1, reason.word())?;
        }
        match self.model {
            Some(model) => model.figures.fmt(f),
            None => Ok(()),
        }
    }
}

impl fmt::Display for Figures {
    fn fmt(&self, f: &mut fmt::Formatter<'_>) -> fmt::Result {
        let Figures {
            r,
            s_before,
            x,
            y,
            s,
            t,
        } = self;
        write!(f, " figures {r} {s_before} {x} {y} {s} {t}")
    }
}

impl fmt::Display for Fault {
    fn fmt(&self, f: &mut fmt::Formatter<'_>) -> fmt::Result {
        match self {
            Fault::Row(row) => write!(f, "row {row}"),
            Fault::Term(term) => write!(f, "term {term}"),
            Fault::None => write!(f, "none"),
        }
    }
}

/// The answer to a line: why to an evaluation, the place of the number at fault
/// to an admission that is refused 4, and the evening's to another.
enum Said {
    Why(Why),
    Field(usize),
    Answer(Answer),
}

impl fmt::Display for Said {
    fn fmt(&self, f: &mut fmt::Formatter<'_>) -> fmt::Result {
        match self {
            Said::Why(Ok(reasons)) => reasons.fmt(f),
            Said::Why(Err((refusal, fault))) => write!(f, "{} {fault}", refusal.number()),
            Said::Field(place) => {
                let refusal = Refusal::AdmissionOutOfRange;
                write!(f, "{} field {place}", refusal.number())
            }
            Said::Answer(answer) => answer.fmt(f),
        }
    }
}

/// Performs a call; an evaluation is answered by why, and an admission that is
/// refused 4 by the number at fault. The table is good, so some number is.
fn say(table: &mut [Record], kept: &mut Kept, verb: &[u8], words: &[Word]) -> Option<Said> {
    let why = match verb {
        b"evaluate" => {
            let asked = Asked::from_words(kept, words)?;
            Some(why(desk::read(table, asked.id).ok(), &asked.day()))
        }
        _ => None,
    };
    let answer = perform(table, kept, verb, words)?;
    if verb == b"admit" && answer.number() == Refusal::AdmissionOutOfRange.number() {
        let given = admission(&numbers(words)?)?;
        return field::at_fault(&given).map(Said::Field);
    }
    Some(why.map_or(Said::Answer(answer), Said::Why))
}

/// The whole evening, each evaluation answered by why.
pub fn evening(input: impl BufRead, output: impl Write) -> io::Result<()> {
    let mut table = fresh_table(SLOTS_MAX);
    let mut kept = Kept::default();
    serve(input, output, &EVENING, number_or_pair, |verb, words| {
        say(&mut table, &mut kept, verb, words)
    })
}
