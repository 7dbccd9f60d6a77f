//! The evaluations of one evening, made of the exchange's text: a line for each
//! security with its rows, in the order in which the ids first occur, then one
//! without rows for each given id that the text does not have. It goes over the
//! bytes once.

pub mod index;
pub mod plain;

use std::collections::{HashMap, HashSet};
use std::fmt;

use crate::desk::SLOTS_MAX;
use crate::exchange::{BadLine, Cursor, Rows, TOO_LONG};
use crate::protocol::numbers;
use crate::words::{number_or_pair, Word};

/// The most bytes of a text.
pub const TEXT_MAX: usize = 1_048_576;
/// The most securities of a text: a table has no more slots.
pub const SECURITIES_MAX: usize = SLOTS_MAX;
/// The most ids that may be given, as many as a table has slots.
pub const IDS_MAX: usize = SLOTS_MAX;
/// Terms of an evaluation.
const TERMS: usize = 3;

/// What is asked: the words of every evaluation behind its id, `DAY B M` and the
/// three terms, and the given ids.
#[derive(Clone, Debug, PartialEq, Eq)]
pub struct Asked {
    pub day: Vec<Word>,
    pub ids: Vec<i64>,
}

impl Asked {
    /// What the words of a command ask; none where one is no number, a number is
    /// missing, an id is below 0, or there are too many ids. A pair may stand for
    /// the band of a term.
    pub fn from_words(words: &[&[u8]]) -> Option<Asked> {
        use Word::{Number, Pair};
        let words: Option<Vec<Word>> = words.iter().map(|word| number_or_pair(word)).collect();
        let words = words?;
        let mut rest = match &words[..] {
            [Number(_), Number(_), Number(_), rest @ ..] => rest,
            _ => return None,
        };
        for _ in 0..TERMS {
            rest = match rest {
                [Number(_), Pair(_), rest @ ..] => rest,
                [Number(_), Number(_), Number(_), rest @ ..] => rest,
                _ => return None,
            };
        }
        let ids = numbers(rest)?;
        if ids.len() > IDS_MAX || ids.iter().any(|id| *id < 0) {
            return None;
        }
        Some(Asked {
            day: words[..words.len() - rest.len()].to_vec(),
            ids,
        })
    }
}

/// The securities of a text, in the order in which they first occur, and their
/// rows. A security more than a table has slots, or a row more than a security
/// may have, is bad at its line.
pub fn securities(text: &[u8]) -> Result<Vec<(i64, Rows)>, BadLine> {
    if text.len() > TEXT_MAX {
        return Err(BadLine(TOO_LONG));
    }
    let mut cursor = Cursor { rest: text };
    let mut securities: Vec<(i64, Rows)> = Vec::new();
    let mut places = HashMap::new();
    let mut line = 0;
    while !cursor.rest.is_empty() {
        line += 1;
        let (id, row) = cursor.line().ok_or(BadLine(line))?;
        let place = *places.entry(id).or_insert(securities.len());
        if place == SECURITIES_MAX {
            return Err(BadLine(line));
        }
        if place == securities.len() {
            securities.push((id, Rows::NONE));
        }
        securities[place].1.push(&row).ok_or(BadLine(line))?;
    }
    Ok(securities)
}

/// An evaluation as a line of the evening has it.
struct Evaluation<'a> {
    id: i64,
    day: &'a [Word],
    rows: &'a [i64],
}

impl fmt::Display for Evaluation<'_> {
    fn fmt(&self, f: &mut fmt::Formatter<'_>) -> fmt::Result {
        write!(f, "evaluate {}", self.id)?;
        let mut day = self.day.iter();
        day.try_for_each(|word| write!(f, " {word}"))?;
        let mut rows = self.rows.iter();
        rows.try_for_each(|number| write!(f, " {number}"))
    }
}

/// The evaluations of a text, a line each.
pub fn evaluations(asked: &Asked, text: &[u8]) -> Result<String, BadLine> {
    let securities = securities(text)?;
    let mut lines = String::new();
    let mut said = HashSet::new();
    let day = &asked.day[..];
    for (id, rows) in &securities {
        said.insert(*id);
        let (id, rows) = (*id, rows.numbers());
        lines += &format!("{}\n", Evaluation { id, day, rows });
    }
    for id in asked.ids.iter().copied() {
        if said.insert(id) {
            lines += &format!("{}\n", Evaluation { id, day, rows: &[] });
        }
    }
    Ok(lines)
}
