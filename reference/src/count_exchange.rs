//! Counts how often texts of the exchange meet each edge of W-203: the faults
//! of every field, the spellings of every value, rows, ids, ends and lengths.

use std::io::{self, BufRead};

use crate::count::Count;
use crate::exchange::plain::{self, Bad, Fault, Field, FIELDS, LINE};
use crate::exchange::{asked_id, read, BadLine, Reading, TEXT_MAX};
use crate::tally::{names, Edge, Tally};
use crate::units::ID;

/// The most rows of a security.
const ROWS: usize = 16;
/// From so many zeros on there are hundreds of them.
const HUNDREDS: usize = 200;

/// What a line says, or why it is bad.
type Judged = Result<[i64; FIELDS], Bad>;

/// A text, what is asked of it and what it says.
struct SeenText {
    asked: Vec<u8>,
    text: Vec<u8>,
    reading: Reading,
    lines: Vec<Judged>,
}

impl SeenText {
    fn new(asked: &[u8], text: Vec<u8>) -> Option<SeenText> {
        let lines = split(&text).map(plain::line).collect();
        Some(SeenText {
            asked: asked.to_vec(),
            reading: read(&text, asked_id(asked)?),
            text,
            lines,
        })
    }

    fn id(&self) -> i64 {
        asked_id(&self.asked).unwrap_or_default()
    }

    fn is_good(&self) -> bool {
        self.reading.is_ok()
    }

    fn rows(&self) -> Option<usize> {
        self.reading.as_ref().ok().map(|rows| rows.count())
    }

    /// The number of the bad line, from 1; 0 where the text is too long.
    fn bad(&self) -> Option<usize> {
        self.reading.as_ref().err().map(|BadLine(line)| *line)
    }

    /// Whether the text is bad at a line, and not for its length.
    fn is_bad_at_a_line(&self) -> bool {
        self.bad().map_or(false, |line| line > 0)
    }

    /// The lines before the bad one, and its place among all.
    fn parted(&self) -> Option<(&[Judged], usize)> {
        let bad = self.bad()?.checked_sub(1)?;
        Some((&self.lines[..bad], bad))
    }

    /// Why the bad line is bad by itself.
    fn why(&self) -> Option<Bad> {
        let (_, bad) = self.parted()?;
        self.lines[bad].err()
    }

    fn is_asked(&self, line: &Judged) -> bool {
        matches!(line, Ok(numbers) if numbers[0] == self.id())
    }

    /// Whether as many rows as there may be stand before the bad line.
    fn is_full_before(&self) -> bool {
        self.parted().map_or(false, |(before, _)| {
            before.iter().filter(|line| self.is_asked(line)).count() == ROWS
        })
    }

    /// The bad line is a good one by itself, the seventeenth row.
    fn is_seventeenth(&self) -> bool {
        self.is_full_before() && self.why().is_none()
    }

    fn has_bad_after(&self) -> bool {
        self.parted().map_or(false, |(_, bad)| {
            self.lines[bad + 1..].iter().any(|line| line.is_err())
        })
    }

    /// Whether a seventeenth row stands after the bad line.
    fn has_seventeenth_after(&self) -> bool {
        let rows = self.lines.iter().filter(|line| self.is_asked(line));
        self.why().is_some() && !self.is_full_before() && rows.count() > ROWS
    }

    fn bad_bytes(&self) -> &[u8] {
        let bad = self
            .parted()
            .and_then(|(_, bad)| split(&self.text).nth(bad));
        bad.unwrap_or_default()
    }

    fn has_crlf(&self) -> bool {
        split(&self.text).any(|line| line.ends_with(b"\r\n"))
    }

    fn has_lf(&self) -> bool {
        split(&self.text).any(|line| line.ends_with(b"\n") && !line.ends_with(b"\r\n"))
    }

    fn is_of_length(&self, length: usize) -> bool {
        self.text.len() == length
    }

    /// An id that no line may have is asked for.
    fn is_asked_outside(&self) -> bool {
        !ID.contains(&self.id())
    }

    /// The asked id is some line's if it were cut to so many bits.
    fn is_wrapping(&self, bits: u32) -> bool {
        let word = std::str::from_utf8(&self.asked).unwrap_or_default();
        let asked: u128 = word.parse().unwrap_or_default();
        let cut = asked & ((1 << bits) - 1);
        let is_cut = |numbers: &[i64; FIELDS]| numbers[0] as u128 == cut;
        cut != asked && self.lines.iter().flatten().any(is_cut)
    }
}

/// The lines of a text with their ends.
fn split(text: &[u8]) -> impl Iterator<Item = &[u8]> {
    text.split_inclusive(|byte| *byte == b'\n')
}

fn edges() -> Vec<Edge<SeenText>> {
    vec![
        ("an empty text", |t| t.text.is_empty() && t.is_good()),
        ("one byte fewer than the most", |t| {
            t.is_of_length(TEXT_MAX - 1) && t.is_good()
        }),
        ("the most bytes", |t| {
            t.is_of_length(TEXT_MAX) && t.rows().map_or(false, |rows| rows > 0)
        }),
        ("one byte more than the most", |t| {
            t.is_of_length(TEXT_MAX + 1) && t.bad() == Some(0)
        }),
        ("one byte more than the most, and a bad line", |t| {
            t.is_of_length(TEXT_MAX + 1) && t.lines[0].is_err()
        }),
        ("far more bytes than the most", |t| {
            t.text.len() > 2 * TEXT_MAX && t.bad() == Some(0)
        }),
        ("the most bytes, the last line bad", |t| {
            t.is_of_length(TEXT_MAX) && t.why().is_some() && t.bad() == Some(t.lines.len())
        }),
        ("the most bytes in one line", |t| {
            t.is_of_length(TEXT_MAX) && t.lines.len() == 1 && t.is_good()
        }),
        ("thousands of lines", |t| {
            t.lines.len() > 4_000 && t.is_good()
        }),
        ("LF alone", |t| t.is_good() && t.has_lf() && !t.has_crlf()),
        ("CR LF alone", |t| {
            t.is_good() && t.has_crlf() && !t.has_lf()
        }),
        ("CR LF mixed with LF", |t| {
            t.is_good() && t.has_crlf() && t.has_lf()
        }),
        ("an unended last line, good but for that", |t| {
            let ended = [t.bad_bytes(), b"\n"].concat();
            t.why() == Some(Bad::Unended) && plain::line(&ended).is_ok()
        }),
        ("an unended last line with a CR", |t| {
            t.why() == Some(Bad::Unended) && t.bad_bytes().ends_with(b"\r")
        }),
        ("a bad line before an unended one", |t| {
            t.why() != Some(Bad::Unended)
                && t.is_bad_at_a_line()
                && t.lines.last() == Some(&Err(Bad::Unended))
        }),
        ("CR CR LF", |t| t.bad_bytes().ends_with(b"\r\r\n")),
        ("a CR after the LF", |t| t.bad_bytes().starts_with(b"\r")),
        ("a line of LF alone", |t| t.bad_bytes() == b"\n"),
        ("a line of CR LF alone", |t| t.bad_bytes() == b"\r\n"),
        ("seven fields", |t| plain::fields(t.bad_bytes()).len() == 7),
        ("nine fields", |t| plain::fields(t.bad_bytes()).len() == 9),
        ("a semicolon before the line", |t| {
            t.bad_bytes().starts_with(b";") && t.why() == Some(Bad::MoreFields)
        }),
        ("a semicolon behind the line", |t| {
            let fields = plain::fields(t.bad_bytes());
            fields.len() == 9 && fields[8].is_empty()
        }),
        ("a trade with an empty close", |t| {
            is_traded(t, |close| close.is_empty())
        }),
        ("a trade with a close of 0", |t| {
            is_traded(t, |close| close == b"0")
        }),
        ("a trade with a close of 0 with decimals", |t| {
            is_traded(t, |close| close.contains(&b'.'))
        }),
        ("the first line bad", |t| {
            t.bad() == Some(1) && t.why().is_some() && t.lines.len() > 1
        }),
        ("a middle line bad", |t| {
            t.bad().map_or(false, |bad| bad > 1 && bad < t.lines.len()) && t.why().is_some()
        }),
        ("the last line bad", |t| {
            t.bad() == Some(t.lines.len()) && t.why().is_some() && t.lines.len() > 1
        }),
        ("two bad lines", |t| t.why().is_some() && t.has_bad_after()),
        ("another id's line bad", |t| {
            let of_id = plain::fields(t.bad_bytes())[0];
            let id = plain::field(&LINE[0], of_id);
            matches!(t.why(), Some(Bad::Field(1.., _))) && id.map_or(false, |id| id != t.id())
        }),
        ("15 rows", |t| t.rows() == Some(ROWS - 1)),
        ("16 rows", |t| t.rows() == Some(ROWS)),
        ("a seventeenth row", |t| t.is_seventeenth()),
        ("a seventeenth row and a bad line after it", |t| {
            t.is_seventeenth() && t.has_bad_after()
        }),
        ("a bad line and a seventeenth row after it", |t| {
            t.has_seventeenth_after()
        }),
        ("a bad line as the seventeenth row", |t| {
            let bad = plain::fields(t.bad_bytes())[0];
            let is_asked = plain::field(&LINE[0], bad) == Ok(t.id());
            t.is_full_before() && matches!(t.why(), Some(Bad::Field(..))) && is_asked
        }),
        ("an unended seventeenth row", |t| {
            t.is_full_before() && t.why() == Some(Bad::Unended)
        }),
        ("seventeen lines of another id", |t| {
            let others = t.lines.iter().filter(|line| !t.is_asked(line));
            t.rows() == Some(ROWS) && others.count() > ROWS
        }),
        ("the rows of one id among others", |t| {
            t.rows()
                .map_or(false, |rows| rows > 0 && rows < t.lines.len())
        }),
        ("an id that does not occur", |t| {
            t.rows() == Some(0) && !t.is_asked_outside() && t.lines.len() > 1
        }),
        ("the id 0", |t| {
            t.is_good() && t.id() == 0 && !t.lines.is_empty()
        }),
        ("the greatest id", |t| {
            t.id() == *ID.end() && t.rows().map_or(false, |rows| rows > 0)
        }),
        ("one above the greatest id", |t| {
            t.id() == *ID.end() + 1 && t.is_good()
        }),
        ("an id past 64 bits", |t| {
            t.asked.len() > 20 && t.is_asked_outside() && t.is_good()
        }),
        ("an id that is a line's if cut to 32 bits", |t| {
            t.is_wrapping(32)
        }),
        ("an id that is a line's if cut to 64 bits", |t| {
            t.is_wrapping(64)
        }),
        ("an id with hundreds of zeros", |t| {
            t.asked.len() > HUNDREDS && t.rows().map_or(false, |rows| rows > 0)
        }),
    ]
}

/// Whether the line is bad for its trade, and its close is as told.
fn is_traded(t: &SeenText, is: fn(&[u8]) -> bool) -> bool {
    t.why() == Some(Bad::TradeWithoutClose) && is(plain::fields(t.bad_bytes())[plain::CLOSE])
}

/// The edges of a field in a good text, of which a row says it.
fn value_edges<'t>() -> Vec<Edge<SeenField<'t>>> {
    vec![
        ("at its least", |f| {
            f.value == *f.field.range.start() && !f.bytes.is_empty()
        }),
        ("at its most", |f| f.value == *f.field.range.end()),
        ("with leading zeros", |f| f.zeros() > 1),
        ("with hundreds of leading zeros", |f| f.zeros() > HUNDREDS),
        ("empty", |f| f.bytes.is_empty()),
        ("with no decimals", |f| {
            f.field.places > 0 && f.decimals() == Some(0)
        }),
        ("with one decimal", |f| f.decimals() == Some(1)),
        ("with two decimals", |f| f.decimals() == Some(2)),
        ("with three decimals", |f| f.decimals() == Some(3)),
        ("with four decimals", |f| f.decimals() == Some(4)),
        ("with zeros past its decimals", |f| f.decimals() > Some(4)),
        ("with hundreds of zeros past its decimals", |f| {
            f.decimals() > Some(HUNDREDS)
        }),
        ("minus 0", |f| f.value == 0 && f.bytes.starts_with(b"-")),
        ("below 0", |f| f.value < 0),
    ]
}

/// Whether a field can have an edge.
fn is_of(field: &Field, edge: &str) -> bool {
    match edge {
        "empty" => field.may_be_empty,
        "with no decimals" | "with one decimal" | "with two decimals" => field.places > 0,
        "with three decimals" | "with four decimals" => field.places == 4,
        "with zeros past its decimals" | "with hundreds of zeros past its decimals" => {
            field.zeros_follow
        }
        "minus 0" | "below 0" => field.may_be_negative,
        _ => true,
    }
}

/// A good field.
struct SeenField<'t> {
    field: &'static Field,
    bytes: &'t [u8],
    value: i64,
}

impl SeenField<'_> {
    /// The zeros that lead, the sign aside.
    fn zeros(&self) -> usize {
        let bytes = self.bytes.strip_prefix(b"-").unwrap_or(self.bytes);
        let whole = bytes.split(|byte| *byte == b'.').next().unwrap_or_default();
        let zeros = whole.iter().take_while(|byte| **byte == b'0').count();
        // The 0 before a point, or alone, does not lead.
        if zeros == whole.len() {
            zeros
        } else {
            zeros + usize::from(zeros > 0)
        }
    }

    fn decimals(&self) -> Option<usize> {
        if self.bytes.is_empty() {
            return None;
        }
        let after = self.bytes.split(|byte| *byte == b'.').nth(1);
        Some(after.map_or(0, <[u8]>::len))
    }
}

/// Every edge, in the order in which they are told.
fn every_edge() -> Vec<String> {
    let mut every: Vec<String> = names(edges()).collect();
    for field in &LINE {
        let met = names(value_edges()).filter(|edge| is_of(field, edge));
        every.extend(met.map(|edge| format!("{} {edge}", field.name)));
        let faults = Fault::ALL.iter().filter(|(fault, _)| fault.is_of(field));
        every.extend(faults.map(|(_, name)| fault_name(field, name)));
    }
    every
}

fn fault_name(field: &Field, fault: &str) -> String {
    format!("{} bad: {fault}", field.name)
}

/// Meets the edges of a text.
fn look(tally: &mut Tally, seen: &SeenText) {
    tally.look(&edges(), seen);
    if let Some(Bad::Field(place, fault)) = seen.why() {
        let field = &LINE[place];
        let named = Fault::ALL.iter().find(|(one, _)| *one == fault);
        if let Some((_, name)) = named.filter(|(fault, _)| fault.is_of(field)) {
            tally.meet(&fault_name(field, name));
        }
    }
    if !seen.is_good() {
        return;
    }
    for (line, numbers) in split(&seen.text).zip(&seen.lines) {
        let numbers = match numbers {
            Ok(numbers) => numbers,
            Err(_) => continue,
        };
        let is_row = numbers[0] == seen.id();
        for (place, bytes) in plain::fields(line).into_iter().enumerate() {
            // Only rows are answered, but an id is looked at in every line.
            if !is_row && place > 0 {
                continue;
            }
            let field = &LINE[place];
            let value = numbers[place];
            let seen = SeenField {
                field,
                bytes,
                value,
            };
            for (edge, is_met) in value_edges() {
                if is_of(field, edge) && is_met(&seen) {
                    tally.meet(&format!("{} {edge}", field.name));
                }
            }
        }
    }
}

/// Counts the edges that the texts of an index meet, a line `ID FILE` a text.
pub fn count_exchange(index: impl BufRead) -> io::Result<Count> {
    let mut tally = Tally::new(every_edge().into_iter());
    crate::exchange::index::each(index, |asked, text| {
        if let Some(seen) = SeenText::new(asked, text) {
            look(&mut tally, &seen);
        }
        Ok(())
    })?;
    Ok(tally.count())
}
