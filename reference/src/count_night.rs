//! Counts how often texts of a night meet each edge: its length, its securities
//! and their rows, bad lines, the given ids, and the words of the day.

use std::io::{self, BufRead};

use crate::count::Count;
use crate::exchange::plain::{fields, Bad};
use crate::exchange::TEXT_MAX as EXCHANGE_MAX;
use crate::night::index;
use crate::night::plain::{first_bad, ids, lines, Judged, Why, ROWS_MAX};
use crate::night::{Asked, IDS_MAX, SECURITIES_MAX, TEXT_MAX};
use crate::tally::{names, Edge, Tally};
use crate::units::ID;
use crate::words::Word;

/// A text, what is asked of it and what it says.
struct SeenNight {
    /// The words of the day, and those of the ids, as they are spelled.
    day: Vec<Vec<u8>>,
    given: Vec<Vec<u8>>,
    asked: Asked,
    text: Vec<u8>,
    lines: Vec<Judged>,
    bad: Option<(usize, Why)>,
    /// The ids of the good lines.
    ids: Vec<i64>,
}

impl SeenNight {
    fn new(words: &[&[u8]], text: Vec<u8>) -> Option<SeenNight> {
        let asked = Asked::from_words(words)?;
        let words: Vec<Vec<u8>> = words.iter().map(|word| word.to_vec()).collect();
        let (day, given) = words.split_at(asked.day.len());
        Some(SeenNight {
            day: day.to_vec(),
            given: given.to_vec(),
            lines: lines(&text),
            bad: first_bad(&text),
            ids: ids(&text),
            asked,
            text,
        })
    }

    fn is_good(&self) -> bool {
        self.bad.is_none()
    }

    fn is_long(&self, bytes: usize) -> bool {
        self.text.len() == bytes
    }

    fn is_too_long(&self) -> bool {
        self.bad == Some((0, Why::TooLong))
    }

    fn why(&self) -> Option<Why> {
        self.bad.map(|(_, why)| why)
    }

    fn is_17th(&self) -> bool {
        self.why() == Some(Why::SeventeenthRow)
    }

    fn is_513th(&self) -> bool {
        self.why() == Some(Why::TooManySecurities)
    }

    /// The first bad line is bad by itself.
    fn is_bad_line(&self) -> bool {
        matches!(self.why(), Some(Why::Line(_)))
    }

    /// The lines before the first bad one, and those behind it.
    fn parted(&self) -> (&[Judged], &[Judged]) {
        match self.bad {
            Some((line, _)) if line > 0 => (&self.lines[..line - 1], &self.lines[line..]),
            _ => (&[], &[]),
        }
    }

    /// The bytes of the first bad line.
    fn bad_bytes(&self) -> &[u8] {
        let mut lines = self.text.split_inclusive(|byte| *byte == b'\n');
        let line = self
            .bad
            .and_then(|(line, _)| lines.nth(line.checked_sub(1)?));
        line.unwrap_or_default()
    }

    fn has_bad_after(&self) -> bool {
        self.parted().1.iter().any(|line| line.is_err())
    }

    /// How many securities the lines before the first bad one have.
    fn securities_before(&self) -> usize {
        let (before, _) = self.parted();
        let mut ids: Vec<i64> = before.iter().flatten().map(|numbers| numbers[0]).collect();
        ids.sort_unstable();
        ids.dedup();
        ids.len()
    }

    /// The rows of an id among lines.
    fn rows_among(lines: &[Judged], id: i64) -> usize {
        let is_of_id = |numbers: &&[i64; 8]| numbers[0] == id;
        lines.iter().flatten().filter(is_of_id).count()
    }

    fn rows(&self, id: i64) -> usize {
        SeenNight::rows_among(&self.lines, id)
    }

    /// The id of the first bad line, where it is good by itself.
    fn bad_id(&self) -> Option<i64> {
        let (line, _) = self.bad?;
        let numbers = self.lines.get(line.checked_sub(1)?)?.as_ref().ok()?;
        Some(numbers[0])
    }

    /// The place of the bad line's security among those before it.
    fn bad_place(&self) -> Option<usize> {
        let id = self.bad_id()?;
        self.ids.iter().position(|one| *one == id)
    }

    fn has_rows(&self, count: usize) -> bool {
        self.is_good() && self.ids.iter().any(|id| self.rows(*id) == count)
    }

    fn is_in_text(&self, id: i64) -> bool {
        self.ids.contains(&id)
    }

    /// Some id is given twice, and stands in the text or does not.
    fn is_twice(&self, is_in_text: bool) -> bool {
        let given = &self.asked.ids;
        let twice = |place: usize| given[..place].contains(&given[place]);
        let mut places = (0..given.len()).filter(|place| twice(*place));
        self.is_good() && places.any(|place| self.is_in_text(given[place]) == is_in_text)
    }

    /// A good text, and an id that is given as told and not in it.
    fn gives(&self, is: impl Fn(i64, &[u8]) -> bool) -> bool {
        let mut given = self.asked.ids.iter().zip(&self.given);
        self.is_good() && given.any(|(id, word)| !self.is_in_text(*id) && is(*id, word))
    }

    /// The terms that have a pair.
    fn pairs(&self) -> Vec<usize> {
        let mut terms = Vec::new();
        let mut rest = &self.asked.day[3..];
        for term in 0..3 {
            let is_pair = matches!(rest, [_, Word::Pair(_), ..]);
            rest = &rest[if is_pair { 2 } else { 3 }..];
            if is_pair {
                terms.push(term);
            }
        }
        terms
    }

    /// A good text with lines, of which the pairs are in these terms.
    fn is_paired(&self, terms: &[usize]) -> bool {
        self.is_printed() && self.pairs() == terms
    }

    fn is_printed(&self) -> bool {
        self.is_good() && !self.ids.is_empty()
    }

    /// Some word of the day is as told, and lines are printed.
    fn says(&self, is: impl Fn(&[u8]) -> bool) -> bool {
        self.is_printed() && self.day.iter().any(|word| is(word))
    }

    fn ends_with(&self, end: &[u8]) -> bool {
        let mut lines = self.text.split_inclusive(|byte| *byte == b'\n');
        lines.any(|line| line.ends_with(end))
    }

    /// The bad line is bad by itself and for that alone.
    fn is_bad(&self, bad: Bad) -> bool {
        self.why() == Some(Why::Line(bad))
    }
}

fn edges() -> Vec<Edge<SeenNight>> {
    let mut edges = length_edges();
    edges.extend(security_edges());
    edges.extend(row_edges());
    edges.extend(line_edges());
    edges.extend(id_edges());
    edges.extend(word_edges());
    edges
}

fn length_edges() -> Vec<Edge<SeenNight>> {
    vec![
        ("an empty text and no id", |n| {
            n.text.is_empty() && n.given.is_empty()
        }),
        ("an empty text and an id", |n| {
            n.text.is_empty() && !n.given.is_empty()
        }),
        ("one byte more than `exchange` takes", |n| {
            n.is_good() && n.is_long(EXCHANGE_MAX + 1)
        }),
        ("one byte fewer than the most", |n| {
            n.is_good() && n.is_long(TEXT_MAX - 1)
        }),
        ("the most bytes", |n| {
            n.is_good() && n.is_long(TEXT_MAX) && n.lines.len() > 1
        }),
        ("one byte more than the most", |n| {
            n.is_too_long() && n.is_long(TEXT_MAX + 1) && n.lines[0].is_ok()
        }),
        ("one byte more than the most, and the first line bad", |n| {
            n.is_too_long() && n.is_long(TEXT_MAX + 1) && n.lines[0].is_err()
        }),
        ("far more bytes than the most", |n| {
            n.is_too_long() && n.text.len() > 2 * TEXT_MAX
        }),
        ("the most bytes, unended", |n| {
            n.is_bad(Bad::Unended) && n.is_long(TEXT_MAX)
        }),
        ("the most bytes, the last line bad", |n| {
            let is_last = n.bad.map_or(false, |(line, _)| line == n.lines.len());
            n.is_bad_line() && !n.is_bad(Bad::Unended) && is_last && n.is_long(TEXT_MAX)
        }),
        ("the most bytes in one line", |n| {
            n.is_good() && n.is_long(TEXT_MAX) && n.lines.len() == 1
        }),
        ("one byte more than the most in one line", |n| {
            n.is_too_long() && n.is_long(TEXT_MAX + 1) && n.lines.len() == 1
        }),
    ]
}

fn security_edges() -> Vec<Edge<SeenNight>> {
    vec![
        ("one security", |n| n.is_good() && n.ids.len() == 1),
        ("512 securities", |n| {
            n.is_good() && n.ids.len() == SECURITIES_MAX
        }),
        ("512 securities of 16 rows", |n| {
            let is_full = n.lines.len() == SECURITIES_MAX * ROWS_MAX;
            n.is_good() && n.ids.len() == SECURITIES_MAX && is_full
        }),
        ("512 securities and a given id more", |n| {
            n.ids.len() == SECURITIES_MAX && n.gives(|_, _| true)
        }),
        ("512 securities, and a row of an earlier one behind", |n| {
            let last = n.lines.last();
            let is_earlier = matches!(last, Some(Ok(numbers)) if n.rows(numbers[0]) > 1);
            n.is_good() && n.ids.len() == SECURITIES_MAX && is_earlier
        }),
        ("a 513th security", |n| n.is_513th()),
        ("a 513th security and a bad line behind it", |n| {
            n.is_513th() && n.has_bad_after()
        }),
        ("a bad line and a 513th security behind it", |n| {
            n.is_bad_line() && n.ids.len() > SECURITIES_MAX
        }),
        ("a 513th security on a bad line", |n| {
            let id = fields(n.bad_bytes())[0].to_vec();
            let id = String::from_utf8(id).ok().and_then(|id| id.parse().ok());
            let is_new = id.map_or(false, |id: i64| !n.is_in_text(id));
            n.is_bad_line() && n.securities_before() == SECURITIES_MAX && is_new
        }),
        ("a 513th security on an unended line", |n| {
            n.is_bad(Bad::Unended) && n.securities_before() == SECURITIES_MAX
        }),
        ("a 513th security and a seventeenth row behind it", |n| {
            n.is_513th() && n.ids.iter().any(|id| n.rows(*id) > ROWS_MAX)
        }),
        ("a seventeenth row and a 513th security behind it", |n| {
            n.is_17th() && n.ids.len() > SECURITIES_MAX
        }),
        ("ids that descend", |n| {
            n.is_good() && n.ids.len() > 2 && n.ids.windows(2).all(|two| two[0] > two[1])
        }),
        ("the rows of two securities by turns", |n| {
            let of = |place: usize| n.lines.get(place)?.as_ref().ok().map(|numbers| numbers[0]);
            n.is_good() && n.ids.len() > 1 && of(0) == of(2) && of(0) != of(1)
        }),
        ("a security with and without zeros before its id", |n| {
            let mut lines = n.text.split_inclusive(|byte| *byte == b'\n');
            let is_padded = lines.any(|line| line.starts_with(b"0"));
            n.is_good() && is_padded && n.ids.len() < n.lines.len()
        }),
        ("the least and the greatest id", |n| {
            n.is_good() && n.is_in_text(*ID.start()) && n.is_in_text(*ID.end())
        }),
    ]
}

fn row_edges() -> Vec<Edge<SeenNight>> {
    vec![
        ("a row alone", |n| n.has_rows(1)),
        ("15 rows", |n| n.has_rows(ROWS_MAX - 1)),
        ("16 rows", |n| n.has_rows(ROWS_MAX)),
        ("two securities of 16 rows", |n| {
            let is_full = |id: &&i64| n.rows(**id) == ROWS_MAX;
            n.is_good() && n.ids.iter().filter(is_full).count() == 2
        }),
        ("a seventeenth row of the first security", |n| {
            n.is_17th() && n.bad_place() == Some(0)
        }),
        ("a seventeenth row of a later security", |n| {
            n.is_17th() && n.bad_place() > Some(0)
        }),
        ("a seventeenth row and a bad line behind it", |n| {
            n.is_17th() && n.has_bad_after()
        }),
        ("a bad line and a seventeenth row behind it", |n| {
            n.is_bad_line() && n.ids.iter().any(|id| n.rows(*id) > ROWS_MAX)
        }),
        ("a seventeenth row on an unended line", |n| {
            let is_full = |id: &&i64| n.rows(**id) == ROWS_MAX;
            n.is_bad(Bad::Unended) && n.ids.iter().any(|id| is_full(&id))
        }),
        ("a seventeenth row of a security that is given", |n| {
            let is_given = |id: i64| n.asked.ids.contains(&id);
            n.is_17th() && n.bad_id().map_or(false, is_given)
        }),
    ]
}

fn line_edges() -> Vec<Edge<SeenNight>> {
    vec![
        ("the first line bad", |n| {
            n.is_bad_line() && n.bad_line() == 1 && n.lines.len() > 1
        }),
        ("a middle line bad", |n| {
            n.is_bad_line() && n.bad_line() > 1 && n.bad_line() < n.lines.len()
        }),
        ("the last line bad", |n| {
            n.is_bad_line() && n.bad_line() == n.lines.len() && n.lines.len() > 1
        }),
        ("two bad lines", |n| n.is_bad_line() && n.has_bad_after()),
        ("an unended line", |n| n.is_bad(Bad::Unended)),
        ("a line with no byte", |n| n.bad_bytes() == b"\n"),
        ("a line that is a heading of an evening", |n| {
            n.bad_bytes().starts_with(b"#")
        }),
        ("a line with fewer fields", |n| n.is_bad(Bad::FewerFields)),
        ("a line with more fields", |n| n.is_bad(Bad::MoreFields)),
        ("a line with a field at fault", |n| {
            matches!(n.why(), Some(Why::Line(Bad::Field(..))))
        }),
        ("a trade without a close", |n| {
            n.is_bad(Bad::TradeWithoutClose)
        }),
        ("CR LF alone", |n| {
            n.is_printed()
                && n.text
                    .split_inclusive(|byte| *byte == b'\n')
                    .all(|line| line.ends_with(b"\r\n"))
        }),
        ("CR LF and LF", |n| {
            let mut lines = n.text.split_inclusive(|byte| *byte == b'\n');
            n.is_good() && n.ends_with(b"\r\n") && lines.any(|line| !line.ends_with(b"\r\n"))
        }),
        ("a bad line and ids that the text does not have", |n| {
            let given = &n.asked.ids;
            n.is_bad_line() && given.iter().any(|id| !n.is_in_text(*id))
        }),
        ("missing prices", |n| {
            n.is_printed() && n.lines.iter().flatten().any(|line| line[4..7] == [0; 3])
        }),
        ("a repo rate below 0", |n| {
            n.is_printed() && n.lines.iter().flatten().any(|line| line[3] < 0)
        }),
    ]
}

impl SeenNight {
    fn bad_line(&self) -> usize {
        self.bad.map_or(0, |(line, _)| line)
    }
}

fn id_edges() -> Vec<Edge<SeenNight>> {
    vec![
        ("no id", |n| n.is_printed() && n.given.is_empty()),
        ("an id that the text has", |n| {
            n.is_good() && n.asked.ids.iter().any(|id| n.is_in_text(*id))
        }),
        ("ids that the text has alone", |n| {
            let given = &n.asked.ids;
            n.is_good() && given.len() > 1 && given.iter().all(|id| n.is_in_text(*id))
        }),
        ("an id that the text does not have", |n| {
            n.is_printed() && n.gives(|_, _| true)
        }),
        ("an id of each kind", |n| {
            let has = n.asked.ids.iter().any(|id| n.is_in_text(*id));
            has && n.gives(|_, _| true)
        }),
        ("an id twice that the text has", |n| n.is_twice(true)),
        ("an id twice that the text does not have", |n| {
            n.is_twice(false)
        }),
        ("ids that descend, none of the text", |n| {
            let given = &n.asked.ids;
            let descend = given.len() > 2 && given.windows(2).all(|two| two[0] > two[1]);
            n.is_printed() && descend && !given.iter().any(|id| n.is_in_text(*id))
        }),
        ("as many ids as may be given", |n| {
            n.is_good() && n.given.len() == IDS_MAX
        }),
        ("an id with zeros before it, of the text", |n| {
            let mut given = n.asked.ids.iter().zip(&n.given);
            let is_padded = |id: i64, word: &[u8]| n.is_in_text(id) && word.starts_with(b"0");
            n.is_good() && given.any(|(id, word)| is_padded(*id, word))
        }),
        ("an id in two spellings", |n| {
            let given = &n.asked.ids;
            let other = |place: usize| {
                (0..place).any(|before| {
                    given[before] == given[place] && n.given[before] != n.given[place]
                })
            };
            n.is_good() && (0..given.len()).any(other)
        }),
        ("the id 0", |n| n.gives(|id, word| id == 0 && word == b"0")),
        ("an id of minus 0", |n| n.gives(|_, word| word == b"-0")),
        ("one above the greatest id", |n| {
            n.gives(|id, _| id == *ID.end() + 1)
        }),
        ("the greatest number of 64 bits as an id", |n| {
            n.gives(|id, _| id == i64::MAX)
        }),
        ("an id that is the text's if cut to 32 bits", |n| {
            n.gives(|id, _| n.is_in_text(id & i64::from(u32::MAX)))
        }),
    ]
}

fn word_edges() -> Vec<Edge<SeenNight>> {
    vec![
        ("no pair", |n| n.is_paired(&[])),
        ("a pair in term 0", |n| n.is_paired(&[0])),
        ("a pair in term 1", |n| n.is_paired(&[1])),
        ("a pair in term 2", |n| n.is_paired(&[2])),
        ("a pair in each term", |n| n.is_paired(&[0, 1, 2])),
        ("a pair with zeros before its numbers", |n| {
            n.says(|word| word.contains(&b'/') && word.starts_with(b"00"))
        }),
        ("a pair below 0", |n| {
            n.says(|word| word.contains(&b'/') && word.starts_with(b"-"))
        }),
        ("a number with zeros before it", |n| {
            n.says(|word| !word.contains(&b'/') && word.starts_with(b"00"))
        }),
        ("minus 0", |n| n.says(|word| word == b"-0")),
        ("a number below 0", |n| {
            n.says(|word| !word.contains(&b'/') && word.starts_with(b"-") && word != b"-0")
        }),
        ("the least number of 64 bits", |n| {
            n.says(|word| word == b"-9223372036854775808")
        }),
        ("the greatest number of 64 bits", |n| {
            n.says(|word| word == b"9223372036854775807")
        }),
    ]
}

/// Counts the edges that the texts of an index meet, a line `WORD... FILE` a
/// text.
pub fn count_night(input: impl BufRead) -> io::Result<Count> {
    let mut tally = Tally::new(names(edges()));
    let edges = edges();
    index::each(input, |_, words, text| {
        if let Some(seen) = SeenNight::new(words, text) {
            tally.look(&edges, &seen);
        }
        Ok(())
    })?;
    Ok(tally.count())
}
