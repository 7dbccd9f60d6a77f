//! The evening's text in Rust, as fast as we could make it: the rival of the program `evening`. It answers the calls of
//! docs/EVENING.md as the reference does, byte for byte, and `cargo test` compares the two. The program `rival` runs it
//! over standard input.
//!
//! The bytes are passed once: a word is taken where it stands, and its number worked out on the way (`line`). The place
//! of an id is found by an index (`index`). A record is changed in its place and never copied (`rules`), an evaluation
//! by the tuned version (`crate::tuned`). Answers are gathered and written together (`answers`). Nothing is allocated
//! for a line but for an `interest` or a `bond` line, which the reference's own rules answer, since they are rare.
//!
//! A table that calls have made has each id once, and each of its records is sound; so neither is tested here, but for
//! the tuned evaluation, which tests its record.

mod answers;
mod desk;
mod index;
mod line;
mod moves;
mod rules;
#[cfg(test)]
mod tests;

use std::io::{self, ErrorKind, Read, Write};

use reference::bond;
use reference::interest::Sheet;
use reference::kept::Kept;
use reference::protocol;
use reference::slices::split_first;
use reference::words::EVENING_LINE_MAX;

use answers::Answers;
use desk::Desk;
use line::{Call, Line, Numbers};

/// Bytes that are read at once, what is left of a line before them included.
const PIECE: usize = 1 << 18;

/// Answers every line of the input, as `reference::protocol::evening` does. What is answered is written before more is
/// read, so that whoever types a line sees its answer.
pub fn evening(mut input: impl Read, output: impl Write) -> io::Result<()> {
    let mut evening = Evening::new(output);
    let mut piece = vec![0; PIECE];
    // The bytes at the start of the piece whose line has not ended.
    let mut begun = 0;
    loop {
        evening.answers.write()?;
        let read = match input.read(&mut piece[begun..]) {
            Ok(0) => break,
            Ok(read) => read,
            Err(error) if error.kind() == ErrorKind::Interrupted => continue,
            Err(error) => return Err(error),
        };
        let filled = begun + read;
        let last = piece[begun..filled].iter().rposition(|byte| *byte == b'\n');
        let ended = last.map_or(0, |last| begun + last + 1);
        evening.answer(&piece[..ended])?;
        piece.copy_within(ended..filled, 0);
        // Of a line that is too long already, what is left stays too long: the rest need not be kept.
        begun = (filled - ended).min(EVENING_LINE_MAX + 1);
    }
    if begun > 0 {
        piece[begun] = b'\n';
        evening.answer(&piece[..=begun])?;
    }
    evening.answers.write()
}

/// An evening so far.
struct Evening<W> {
    desk: Desk,
    kept: Kept,
    numbers: Numbers,
    /// Lines so far.
    lines: u64,
    answers: Answers<W>,
}

impl<W: Write> Evening<W> {
    fn new(output: W) -> Evening<W> {
        Evening {
            desk: Desk::new(),
            kept: Kept::default(),
            numbers: Numbers::new(),
            lines: 0,
            answers: Answers::new(output),
        }
    }

    /// Answers whole lines: the last byte, if there is one, ends a line.
    fn answer(&mut self, text: &[u8]) -> io::Result<()> {
        let mut at = 0;
        while at < text.len() {
            let start = at;
            self.lines += 1;
            let (line, end) = line::read(text, start, &mut self.numbers, &self.kept);
            at = end + 1;
            let is_too_long = end - start > EVENING_LINE_MAX;
            let is_answered = match line {
                _ if is_too_long => false,
                Line::Nothing => true,
                Line::Bad => false,
                Line::Call(call) => self.perform(call).is_some(),
            };
            if !is_answered {
                self.answers.bad(self.lines);
            }
            self.answers.write_where_full()?;
        }
        Ok(())
    }

    /// Performs a call and answers it; none where it has another count of numbers.
    #[inline(always)]
    fn perform(&mut self, call: Call) -> Option<()> {
        let (desk, answers) = (&mut self.desk, &mut self.answers);
        match (call, self.numbers.kept()) {
            (Call::Quote, &[id, second, term, bid, ask]) => {
                let found = desk.find(id);
                answers.alerts(found.and_then(|it| rules::quote(it, second, term, bid, ask)));
            }
            (Call::Evaluate, numbers) => {
                let (head, rows) = split_first(numbers)?;
                answers.record(desk.change(head[0], |it| rules::evaluate(it, head, rows)));
            }
            (Call::Move, &[id, side]) => {
                answers.record(desk.change(id, |it| rules::move_side(it, side)));
            }
            (Call::Read, &[id]) => answers.record(desk.find(id)),
            (Call::Open, &[id]) => answers.record(desk.change(id, rules::open)),
            (Call::Outside, &[id, bid, ask]) => {
                answers.record(desk.change(id, |it| rules::send(it, bid, ask)));
            }
            (Call::Notice, &[id, side, bits]) => {
                answers.record(desk.change(id, |it| rules::notice(it, side, bits)));
            }
            (Call::Withdraw, &[id]) => answers.record(desk.change(id, rules::withdraw)),
            (Call::Admit, numbers) => answers.done(desk.admit(&protocol::admission(numbers)?)),
            (Call::Interest, _) => self.work_interest()?,
            (Call::Bond, _) => self.work_bond()?,
            _ => return None,
        }
        Some(())
    }

    /// Works a sheet of the interest side out by the reference's rules, and keeps its band.
    #[cold]
    fn work_interest(&mut self) -> Option<()> {
        let (values, maturities) = split_first(self.numbers.kept())?;
        let figures = Sheet::from_numbers(values, maturities).map(|sheet| {
            let worked = sheet.worked();
            self.kept.keep(sheet.pair, worked.band);
            worked.numbers()
        });
        self.answers.figures(figures.as_deref());
        Some(())
    }

    /// Works a bond out by the reference's rules.
    #[cold]
    fn work_bond(&mut self) -> Option<()> {
        let (values, flows) = split_first(self.numbers.kept())?;
        let figures = bond::worked(values, flows).map(|worked| worked.numbers());
        self.answers
            .figures(figures.as_ref().map(|figures| &figures[..]));
        Some(())
    }
}
