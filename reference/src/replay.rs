//! Performs an evening's script again and shows its calls, or its evaluations,
//! its admissions or its moves alone, for the counts of edges that these meet.

use std::io::{self, BufRead};

use crate::desk::{self, fresh_table, SLOTS_MAX};
use crate::kept::Kept;
use crate::protocol::{admission, perform, Answer, Asked};
use crate::record::{Record, Side};
use crate::security::Admission;
use crate::words::{hear, number_or_pair, Word, EVENING};

/// A call of a script.
pub struct Call<'a> {
    /// Its line, counted from 1.
    pub line: u64,
    pub verb: &'a [u8],
    pub words: &'a [Word],
    pub answer: Answer,
    /// What is kept after it.
    kept: &'a Kept,
    /// The record of its first number before it; none where that is no id of the
    /// table.
    pub before: Option<Record>,
    /// The record of its first number after it.
    pub after: Option<Record>,
}

impl Call<'_> {
    /// The numbers among its words.
    pub fn numbers(&self) -> Vec<i64> {
        self.words.iter().filter_map(|word| word.number()).collect()
    }

    /// What an evaluation is asked, of which nothing that is kept changes; none
    /// where the call is another.
    pub fn asked(&self) -> Option<Asked> {
        if self.verb != b"evaluate" {
            return None;
        }
        Asked::from_words(self.kept, self.words)
    }
}

/// An evaluation of a script.
pub struct Evaluation {
    pub asked: Asked,
    /// The record before; none where there is no such id.
    pub before: Option<Record>,
    /// The number of the answer.
    pub number: i64,
    /// The record after; that before where the evaluation is refused.
    pub after: Option<Record>,
}

/// Shows every call of a script, in order.
pub fn calls(input: impl BufRead, mut see: impl FnMut(&Call)) -> io::Result<()> {
    let mut table = fresh_table(SLOTS_MAX);
    let mut kept = Kept::default();
    let mut heard = Vec::new();
    for (line, number) in input.split(b'\n').zip(1..) {
        let perform = |verb: &[u8], words: &[Word]| {
            let id = words.first()?.number()?;
            let before = desk::read(&table, id).ok().copied();
            let answer = perform(&mut table, &mut kept, verb, words)?;
            see(&Call {
                line: number,
                verb,
                words,
                answer,
                kept: &kept,
                before,
                after: desk::read(&table, id).ok().copied(),
            });
            Some(answer)
        };
        hear(&line?, &EVENING, &mut heard, number_or_pair, perform);
    }
    Ok(())
}

/// Shows every admission of a script, in order, with the number of its answer.
pub fn admissions(input: impl BufRead, mut see: impl FnMut(&Admission, i64)) -> io::Result<()> {
    calls(input, |call| {
        if let (b"admit", Some(given)) = (call.verb, admission(&call.numbers())) {
            see(&given, call.answer.number());
        }
    })
}

/// Shows every accepted move of a script, in order: its side and the record
/// after it.
pub fn moves(input: impl BufRead, mut see: impl FnMut(Side, &Record)) -> io::Result<()> {
    calls(input, |call| {
        if call.verb != b"move" || call.answer.number() != 0 {
            return;
        }
        let side = call.numbers().get(1).copied().and_then(Side::from_number);
        if let (Some(after), Some(side)) = (&call.after, side) {
            see(side, after);
        }
    })
}

/// Shows every evaluation of a script, in order.
pub fn evaluations(input: impl BufRead, mut see: impl FnMut(&Evaluation)) -> io::Result<()> {
    calls(input, |call| {
        if let Some(asked) = call.asked() {
            see(&Evaluation {
                asked,
                before: call.before,
                number: call.answer.number(),
                after: call.after,
            });
        }
    })
}
