//! Good lines of the exchange, and texts of them.

use crate::exchange::plain::{CLOSE, FIELDS, LINE, VOLUME};
use crate::random::Random;
use crate::units::ID;

use super::fields::{any_spelling, value};
use super::Text;

/// A line: its fields, and what ends it.
#[derive(Clone)]
pub struct Line {
    pub fields: Vec<Vec<u8>>,
    pub end: &'static [u8],
}

impl Line {
    pub fn bytes(&self) -> Vec<u8> {
        [&self.fields.join(&b';')[..], self.end].concat()
    }
}

/// A good line of numbers, each in any style.
fn spelled_line(random: &mut Random, numbers: [i64; FIELDS]) -> Line {
    let fields = numbers.iter().zip(&LINE);
    Line {
        fields: fields
            .map(|(number, field)| any_spelling(random, field, *number))
            .collect(),
        end: b"\n",
    }
}

/// The numbers of a good line.
fn numbers(random: &mut Random, id: i64) -> [i64; FIELDS] {
    let mut numbers = [id; FIELDS];
    for (number, field) in numbers.iter_mut().zip(&LINE).skip(1) {
        *number = value(random, field);
    }
    if numbers[VOLUME] > 0 {
        numbers[CLOSE] = numbers[CLOSE].max(1);
    }
    numbers
}

/// A good line of an id.
pub fn line(random: &mut Random, id: i64) -> Line {
    let numbers = numbers(random, id);
    spelled_line(random, numbers)
}

/// A good line of an id with a given value at a place, spelled as given.
pub fn line_with(random: &mut Random, id: i64, place: usize, value: i64, bytes: Vec<u8>) -> Line {
    let mut numbers = numbers(random, id);
    numbers[place] = value;
    if numbers[CLOSE] == 0 && place == VOLUME {
        numbers[CLOSE] = 1;
    } else if numbers[CLOSE] == 0 {
        numbers[VOLUME] = 0;
    }
    let mut line = spelled_line(random, numbers);
    line.fields[place] = bytes;
    line
}

/// The id that is asked for, and the lines.
pub struct Sheet {
    pub id: i64,
    pub lines: Vec<Line>,
}

impl Sheet {
    /// So many rows of the id, and so many lines of others, in any order.
    pub fn new(random: &mut Random, rows: usize, others: usize) -> Sheet {
        let mut sheet = Sheet {
            id: any_id(random),
            lines: Vec::new(),
        };
        for _ in 0..rows {
            let row = line(random, sheet.id);
            sheet.insert(random, row);
        }
        for _ in 0..others {
            let other = sheet.other_line(random);
            sheet.insert(random, other);
        }
        sheet
    }

    /// A few rows, and a few lines of others; never nothing.
    pub fn any(random: &mut Random) -> Sheet {
        let rows = random.pick(&[1, 1, 2, 3, 5, 15, 16]);
        let others = random.below(7);
        Sheet::new(random, rows, others)
    }

    /// Puts a line at any place.
    pub fn insert(&mut self, random: &mut Random, line: Line) {
        let place = random.below(self.lines.len() + 1);
        self.lines.insert(place, line);
    }

    /// A good line of another id, often one that looks like the asked one.
    pub fn other_line(&self, random: &mut Random) -> Line {
        let near = [self.id - 1, self.id + 1, 10 * self.id, self.id / 10];
        let id = match random.below(2) {
            0 => random.pick(&near),
            _ => any_id(random),
        };
        let other = if ID.contains(&id) && id != self.id {
            id
        } else {
            self.id % *ID.end() + 1
        };
        line(random, other)
    }

    /// Ends each line with LF, with CR LF, or with either.
    pub fn end_lines(&mut self, random: &mut Random) {
        let crlf = random.pick(&[0, 0, 50, 100]);
        for line in &mut self.lines {
            line.end = if random.chance(crlf) { b"\r\n" } else { b"\n" };
        }
    }

    pub fn bytes(&self) -> Vec<u8> {
        self.lines.iter().flat_map(Line::bytes).collect()
    }

    pub fn text(&self) -> Text {
        Text {
            id: self.id.to_string(),
            bytes: self.bytes(),
        }
    }
}

fn any_id(random: &mut Random) -> i64 {
    match random.below(8) {
        0 => *ID.start(),
        1 => *ID.end(),
        2 => 7,
        _ => random.any_size(*ID.end()).max(*ID.start()),
    }
}
