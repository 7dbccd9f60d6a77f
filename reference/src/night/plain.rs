//! The sentences about a night one after the other: a second reading without
//! haste, for the counts of edges and the reader's test.

use super::{SECURITIES_MAX, TEXT_MAX};
use crate::exchange::plain::{line, Bad, FIELDS};

/// The most rows of a security.
pub const ROWS_MAX: usize = 16;

/// What a line says, or why it is bad by itself.
pub type Judged = Result<[i64; FIELDS], Bad>;

/// Every line of a text by itself.
pub fn lines(text: &[u8]) -> Vec<Judged> {
    text.split_inclusive(|byte| *byte == b'\n')
        .map(line)
        .collect()
}

/// Why a text is bad at a line.
#[derive(Clone, Copy, Debug, PartialEq, Eq)]
pub enum Why {
    TooLong,
    /// By itself.
    Line(Bad),
    SeventeenthRow,
    /// One security more than a table has slots.
    TooManySecurities,
}

/// The first bad line, counted from 1, and why it is bad; line 0 where the text
/// is too long.
pub fn first_bad(text: &[u8]) -> Option<(usize, Why)> {
    if text.len() > TEXT_MAX {
        return Some((0, Why::TooLong));
    }
    let lines = lines(text);
    let mut ids: Vec<i64> = Vec::new();
    for (before, line) in lines.iter().enumerate() {
        let id = match line {
            Ok(numbers) => numbers[0],
            Err(bad) => return Some((before + 1, Why::Line(*bad))),
        };
        let is_of_id = |line: &&Judged| matches!(line, Ok(numbers) if numbers[0] == id);
        if !ids.contains(&id) {
            ids.push(id);
        }
        if ids.len() > SECURITIES_MAX {
            return Some((before + 1, Why::TooManySecurities));
        }
        if lines[..before].iter().filter(is_of_id).count() == ROWS_MAX {
            return Some((before + 1, Why::SeventeenthRow));
        }
    }
    None
}

/// The ids of a good text, each once, in the order in which they first occur.
pub fn ids(text: &[u8]) -> Vec<i64> {
    let mut ids = Vec::new();
    for numbers in lines(text).iter().flatten() {
        if !ids.contains(&numbers[0]) {
            ids.push(numbers[0]);
        }
    }
    ids
}

/// The lines that are printed of the words of a command, `count` of them before
/// the given ids, and a good text.
pub fn printed(words: &[&str], count: usize, text: &[u8]) -> Vec<String> {
    let (day, given) = words.split_at(count);
    let day: Vec<String> = day.iter().map(|word| respelled(word)).collect();
    let lines = lines(text);
    let mut ids = ids(text);
    for id in given {
        let id = id.parse().expect("the id is a number");
        if !ids.contains(&id) {
            ids.push(id);
        }
    }
    let evaluation = |id: &i64| {
        let mut words = vec!["evaluate".to_string(), id.to_string()];
        words.extend(day.clone());
        for numbers in lines.iter().flatten().filter(|numbers| numbers[0] == *id) {
            words.extend(numbers[1..].iter().map(i64::to_string));
        }
        words.join(" ")
    };
    ids.iter().map(evaluation).collect()
}

/// A number, or the two of a pair, without what may be spelled otherwise.
fn respelled(word: &str) -> String {
    let plain = |number: &str| {
        let number: i64 = number.parse().expect("the word is a number");
        number.to_string()
    };
    let numbers: Vec<String> = word.split('/').map(plain).collect();
    numbers.join("/")
}
