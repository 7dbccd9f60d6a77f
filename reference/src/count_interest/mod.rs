//! Counts how often a script of the evening meets each edge of W-201, so that
//! an agreement of two programs on the script says something about it.

mod days;
mod keys;
mod lines;
mod sheets;

use std::io::{self, BufRead};

use crate::count::Count;
use crate::desk::{fresh_table, SLOTS_MAX};
use crate::interest::{Figures, Key, Pair, Sheet, Worked};
use crate::kept::Kept;
use crate::protocol::perform;
use crate::record::Record;
use crate::slices::split_first;
use crate::tally::{names, Tally};
use crate::words::{hear, number_or_pair, words, Heard, Word, EVENING};

use days::SeenDay;
use keys::SeenKey;
use lines::SeenLine;
use sheets::SeenSheet;

/// Accepted sheets among which an evening's last one is looked for.
const RECENT: usize = 40;

/// The edge of a line that is no call for its slash.
const BAD_PAIR: &str = "bad lines with a slash";

/// Every edge, in the order in which they are told.
fn every_edge() -> impl Iterator<Item = String> {
    (names(keys::edges()).chain(names(sheets::edges())))
        .chain(names(lines::edges()))
        .chain(lines::range_edges())
        .chain(names(days::edges()))
        .chain([BAD_PAIR.to_string()])
}

/// A reader of a script, with a desk of its own.
struct Reader {
    table: Vec<Record>,
    kept: Kept,
    /// The sheets accepted of late and their figures.
    recent: Vec<(Sheet, Worked)>,
    refused_pairs: Vec<Pair>,
    tally: Tally,
}

impl Reader {
    fn read(&mut self, line: &[u8], heard: &mut Vec<Word>) {
        let (table, kept) = (&mut self.table, &mut self.kept);
        let said = hear(line, &EVENING, heard, number_or_pair, |verb, words| {
            Some(perform(table, kept, verb, words)?.number())
        });
        let verb = words(line).next().unwrap_or_default();
        match said {
            Heard::Answer(number) if verb == b"interest" => self.read_interest(heard, number),
            Heard::Answer(number) if verb == b"evaluate" => self.read_day(heard, number),
            Heard::Bad if line.contains(&b'/') => self.tally.meet(BAD_PAIR),
            _ => {}
        }
    }

    fn read_interest(&mut self, heard: &[Word], number: i64) {
        let numbers: Vec<i64> = heard.iter().filter_map(|word| word.number()).collect();
        let (values, maturities) = split_first(&numbers).expect("the line was heard");
        let line = SeenLine {
            values,
            maturities,
            number,
        };
        self.tally.look(&lines::edges(), &line);
        for edge in line.range_edges() {
            self.tally.meet(&edge);
        }
        match Sheet::from_numbers(values, maturities) {
            Ok(sheet) => self.read_sheet(sheet),
            Err(_) => self.refused_pairs.push(Pair {
                ym: values[1],
                yn: values[2],
            }),
        }
    }

    fn read_sheet(&mut self, sheet: Sheet) {
        let worked = sheet.worked();
        for (key, figures) in sheet.keys.iter().zip(&worked.figures) {
            let seen = SeenKey {
                sheet: &sheet,
                key,
                figures,
            };
            self.tally.look(&keys::edges(), &seen);
        }
        let (lower, upper) = sheet.limits(&worked.figures);
        let seen = SeenSheet {
            sheet: &sheet,
            worked: &worked,
            lower,
            upper,
            is_chained: self.recent.iter().any(|last| is_next(last, &sheet)),
        };
        self.tally.look(&sheets::edges(), &seen);
        self.recent.push((sheet, worked));
        if self.recent.len() > RECENT {
            self.recent.remove(0);
        }
    }

    /// An evaluation keeps no band, and a refused one changes no record, so what
    /// it met still stands.
    fn read_day(&mut self, heard: &[Word], number: i64) {
        let pairs: Vec<Pair> = heard.iter().filter_map(|word| word.pair()).collect();
        if pairs.is_empty() {
            return;
        }
        let given = |place: usize| heard.get(place).and_then(|word| word.number());
        let record = self.table.iter().find(|record| Some(record.id) == given(0));
        let day = SeenDay {
            pairs,
            kept: &self.kept,
            refused_pairs: &self.refused_pairs,
            is_late: record.map_or(false, |record| given(1) <= Some(record.last_day())),
            number,
        };
        self.tally.look(&days::edges(), &day);
    }
}

/// Whether a sheet is the next evening of an earlier one: the same maturities,
/// each given the last one's figures and rates.
fn is_next((last, worked): &(Sheet, Worked), sheet: &Sheet) -> bool {
    let follows = |(key, (last, figures)): (&Key, (&Key, &Figures))| {
        key.days == last.days
            && key.rate_1 == last.rate
            && key.rate_2 == last.rate_1
            && key.before == figures.after
    };
    let given = last.keys.iter().zip(&worked.figures);
    last.keys.len() == sheet.keys.len() && sheet.keys.iter().zip(given).all(follows)
}

/// Counts the edges that a script meets.
pub fn count_interest(input: impl BufRead) -> io::Result<Count> {
    let mut reader = Reader {
        table: fresh_table(SLOTS_MAX),
        kept: Kept::default(),
        recent: Vec::new(),
        refused_pairs: Vec::new(),
        tally: Tally::new(every_edge()),
    };
    let mut heard = Vec::new();
    for line in input.split(b'\n') {
        reader.read(&line?, &mut heard);
    }
    Ok(reader.tally.count())
}
