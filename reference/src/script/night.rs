//! Random texts of a night with the words that are asked of each: one for each
//! edge of a length, of securities and rows, of given ids and of words, then
//! texts of the exchange.

use std::io::{self, Write};
use std::path::Path;

use crate::exchange::TEXT_MAX as EXCHANGE_MAX;
use crate::night::plain::ROWS_MAX;
use crate::night::{IDS_MAX, SECURITIES_MAX, TEXT_MAX};
use crate::random::Random;
use crate::units::ID;

use super::exchange::sheet::{line, Line};
use super::exchange::themes::{any_faulty_line, every as exchange_themes};

/// A text, and the words that are asked of it.
pub struct Night {
    words: Vec<String>,
    bytes: Vec<u8>,
}

/// What a text is written for.
#[derive(Clone, Copy)]
enum Theme {
    Length(Length),
    Securities(Securities),
    Rows(Rows),
    Bad(BadLine),
    Ends(&'static [&'static [u8]]),
    Ids(Ids),
    Words(Words),
}

#[derive(Clone, Copy)]
enum Length {
    Nothing,
    NothingAndAnId,
    /// A good text of so many bytes.
    Exactly(usize),
    OneMoreBad,
    ExactlyUnended,
    ExactlyBadAtLast,
    /// A line of so many bytes.
    OneLine(usize),
}

#[derive(Clone, Copy)]
enum Securities {
    One,
    Most,
    MostWithRows,
    MostAndAnId,
    MostAndMoreRows,
    OneMore,
    OneMoreThenBad,
    BadThenOneMore,
    OneMoreIsBad,
    OneMoreUnended,
    OneMoreThenRow,
    RowThenOneMore,
    Descending,
    ByTurns,
    Padded,
    Ends,
}

#[derive(Clone, Copy)]
enum Rows {
    /// So many rows of one security.
    Of(usize),
    TwoFull,
    OneMoreOfFirst,
    OneMoreOfLater,
    OneMoreThenBad,
    BadThenOneMore,
    OneMoreUnended,
    OneMoreGiven,
}

#[derive(Clone, Copy)]
enum BadLine {
    First,
    Middle,
    Last,
    Two,
    Unended,
    /// A line of these bytes.
    Line(&'static [u8]),
    WithIds,
}

#[derive(Clone, Copy)]
enum Ids {
    None,
    Has,
    HasAlone,
    HasNot,
    Both,
    TwiceHas,
    TwiceHasNot,
    Descending,
    Many,
    PaddedHas,
    TwoSpellings,
    /// This word.
    Word(&'static str),
    Wraps,
}

#[derive(Clone, Copy)]
enum Words {
    /// Pairs in these terms.
    Pairs(&'static [usize]),
    /// This word in place of the day.
    Day(&'static str),
    /// This pair in term 1.
    Pair(&'static str),
}

/// Every theme once.
fn themes() -> Vec<Theme> {
    let mut themes = Vec::new();
    themes.extend(LENGTHS.map(Theme::Length));
    themes.extend(SECURITIES.map(Theme::Securities));
    themes.extend(ROWS.map(Theme::Rows));
    themes.extend(BAD_LINES.map(Theme::Bad));
    themes.extend(ENDS.map(Theme::Ends));
    themes.extend(IDS.map(Theme::Ids));
    themes.extend(WORDS.map(Theme::Words));
    themes
}

const LENGTHS: [Length; 12] = [
    Length::Nothing,
    Length::NothingAndAnId,
    Length::Exactly(EXCHANGE_MAX + 1),
    Length::Exactly(TEXT_MAX - 1),
    Length::Exactly(TEXT_MAX),
    Length::Exactly(TEXT_MAX + 1),
    Length::Exactly(2 * TEXT_MAX + 7),
    Length::OneMoreBad,
    Length::ExactlyUnended,
    Length::ExactlyBadAtLast,
    Length::OneLine(TEXT_MAX),
    Length::OneLine(TEXT_MAX + 1),
];
const SECURITIES: [Securities; 16] = [
    Securities::One,
    Securities::Most,
    Securities::MostWithRows,
    Securities::MostAndAnId,
    Securities::MostAndMoreRows,
    Securities::OneMore,
    Securities::OneMoreThenBad,
    Securities::BadThenOneMore,
    Securities::OneMoreIsBad,
    Securities::OneMoreUnended,
    Securities::OneMoreThenRow,
    Securities::RowThenOneMore,
    Securities::Descending,
    Securities::ByTurns,
    Securities::Padded,
    Securities::Ends,
];
const ROWS: [Rows; 10] = [
    Rows::Of(1),
    Rows::Of(ROWS_MAX - 1),
    Rows::Of(ROWS_MAX),
    Rows::TwoFull,
    Rows::OneMoreOfFirst,
    Rows::OneMoreOfLater,
    Rows::OneMoreThenBad,
    Rows::BadThenOneMore,
    Rows::OneMoreUnended,
    Rows::OneMoreGiven,
];
const BAD_LINES: [BadLine; 11] = [
    BadLine::First,
    BadLine::Middle,
    BadLine::Last,
    BadLine::Two,
    BadLine::Unended,
    BadLine::Line(b""),
    BadLine::Line(b"# 17 November"),
    BadLine::Line(b"7;0;1;0;103;;"),
    BadLine::Line(b"7;0;1;0;103;;;5;"),
    BadLine::Line(b"7;0;1;0;;1;2;5"),
    BadLine::WithIds,
];
const ENDS: [&[&[u8]]; 2] = [&[b"\r\n"], &[b"\n", b"\r\n"]];
const IDS: [Ids; 17] = [
    Ids::None,
    Ids::Has,
    Ids::HasAlone,
    Ids::HasNot,
    Ids::Both,
    Ids::TwiceHas,
    Ids::TwiceHasNot,
    Ids::Descending,
    Ids::Many,
    Ids::PaddedHas,
    Ids::TwoSpellings,
    Ids::Word("0"),
    Ids::Word("-0"),
    Ids::Word("1000000001"),
    Ids::Word("1000000000"),
    Ids::Word("9223372036854775807"),
    Ids::Wraps,
];
const WORDS: [Words; 12] = [
    Words::Pairs(&[]),
    Words::Pairs(&[0]),
    Words::Pairs(&[1]),
    Words::Pairs(&[2]),
    Words::Pairs(&[0, 1, 2]),
    Words::Day("0000000000000000000000000007"),
    Words::Day("-0"),
    Words::Day("-1"),
    Words::Day("-9223372036854775808"),
    Words::Day("9223372036854775807"),
    Words::Pair("000/00000000000000000000001"),
    Words::Pair("-1/-0"),
];

/// The words of a day, with pairs in some terms.
fn day(random: &mut Random, pairs: &[usize]) -> Vec<String> {
    let mut words = vec![
        random.any_size(1_000_000).to_string(),
        random.between(0, 30).to_string(),
        random.between(0, 10).to_string(),
    ];
    for term in 0..3 {
        words.push(random.between(0, 30).to_string());
        if pairs.contains(&term) {
            let ym = random.any_size(365);
            words.push(format!("{ym}/{}", ym + 1));
        } else {
            let rrcl = random.between(-9_999, 9_999);
            words.push(rrcl.to_string());
            words.push(random.between(rrcl, 9_999).to_string());
        }
    }
    words
}

/// The words of any day.
fn any_day(random: &mut Random) -> Vec<String> {
    let pairs = random.pick(&[&[][..], &[], &[0], &[1, 2], &[0, 1, 2]]);
    day(random, pairs)
}

/// Ids of securities, each once.
fn some_ids(random: &mut Random, count: usize) -> Vec<i64> {
    let mut ids: Vec<i64> = Vec::new();
    while ids.len() < count {
        let id = match ids.last() {
            // Often one that looks like the last.
            Some(last) if random.chance(30) => random.pick(&[last + 1, last - 1, 10 * last]),
            _ => random.any_size(*ID.end()),
        };
        if ID.contains(&id) && !ids.contains(&id) {
            ids.push(id);
        }
    }
    ids
}

/// An id that is not among some.
fn other_id(random: &mut Random, ids: &[i64]) -> i64 {
    loop {
        let id = random.any_size(*ID.end()).max(*ID.start());
        if !ids.contains(&id) {
            return id;
        }
    }
}

/// A line of few bytes, so that many fit; now and then without a price.
fn short_line(random: &mut Random, id: i64) -> Line {
    let price = random.between(1, 9_999);
    let (bid, ask) = random.pick(&[("", ""), ("1.5", ""), ("", "2"), ("101.25", "102.0001")]);
    let prices = if random.chance(10) {
        ";;;0".to_string()
    } else {
        let volume = random.below(1_000);
        format!("{price}.{:02};{bid};{ask};{volume}", random.below(100))
    };
    let text = format!(
        "{id};{};{};{};{prices}",
        random.below(3),
        random.pick(&["1", "12.3456"]),
        random.pick(&["0", "16.5", "-1.25"]),
    );
    Line {
        fields: text
            .split(';')
            .map(|field| field.as_bytes().to_vec())
            .collect(),
        end: b"\n",
    }
}

/// So many short lines of each id, by turns.
fn book(random: &mut Random, ids: &[i64], rows: usize) -> Vec<Line> {
    let mut lines = Vec::new();
    for _ in 0..rows {
        for id in ids {
            lines.push(short_line(random, *id));
        }
    }
    lines
}

/// A few securities with a few rows each, in any spelling and order.
fn sheet(random: &mut Random, ids: &[i64]) -> Vec<Line> {
    let mut lines = Vec::new();
    for id in ids {
        for _ in 0..random.pick(&[1, 1, 2, 3, 5]) {
            let row = line(random, *id);
            let place = random.below(lines.len() + 1);
            lines.insert(place, row);
        }
    }
    lines
}

fn bytes(lines: &[Line]) -> Vec<u8> {
    lines.iter().flat_map(Line::bytes).collect()
}

/// Zeros before the ids, so that the lines have so many bytes together.
fn padded(mut lines: Vec<Line>, length: usize) -> Vec<Line> {
    let more = length - bytes(&lines).len();
    let each = more / lines.len();
    let last = lines.len() - 1;
    for (place, line) in lines.iter_mut().enumerate() {
        let zeros = if place == last {
            more - each * last
        } else {
            each
        };
        line.fields[0].splice(0..0, vec![b'0'; zeros]);
    }
    lines
}

impl Theme {
    fn night(self, random: &mut Random) -> Night {
        let mut night = Night {
            words: any_day(random),
            bytes: Vec::new(),
        };
        match self {
            Theme::Length(length) => night.bytes = length_text(random, length, &mut night.words),
            Theme::Securities(theme) => {
                night.bytes = bytes(&securities_text(random, theme, &mut night.words));
            }
            Theme::Rows(theme) => night.bytes = bytes(&rows_text(random, theme, &mut night.words)),
            Theme::Bad(theme) => night.bytes = bad_text(random, theme, &mut night.words),
            Theme::Ends(ends) => {
                let ids = some_ids(random, 3);
                let mut lines = [book(random, &ids, 1), sheet(random, &ids)].concat();
                for (number, line) in lines.iter_mut().enumerate() {
                    line.end = ends[number % ends.len()];
                }
                night.bytes = bytes(&lines);
            }
            Theme::Ids(theme) => night.bytes = ids_text(random, theme, &mut night.words),
            Theme::Words(theme) => {
                night.words = words_of(random, theme);
                let count = 1 + random.below(4);
                let ids = some_ids(random, count);
                night.bytes = bytes(&sheet(random, &ids));
            }
        }
        night
    }
}

fn length_text(random: &mut Random, length: Length, words: &mut Vec<String>) -> Vec<u8> {
    let full = |random: &mut Random, length: usize| {
        let ids = some_ids(random, SECURITIES_MAX);
        let rows = if length < TEXT_MAX / 4 { 1 } else { ROWS_MAX };
        padded(book(random, &ids, rows), length)
    };
    let one_line = |length: usize| {
        let line = b"7;0;1;0;103;;;5\n";
        [vec![b'0'; length - line.len()], line.to_vec()].concat()
    };
    match length {
        Length::Nothing => Vec::new(),
        Length::NothingAndAnId => {
            words.push("7".to_string());
            Vec::new()
        }
        Length::Exactly(length) => bytes(&full(random, length)),
        Length::OneMoreBad => {
            let mut text = bytes(&full(random, TEXT_MAX + 1));
            text[0] = b'x';
            text
        }
        Length::ExactlyUnended => {
            let mut text = bytes(&full(random, TEXT_MAX + 1));
            text.pop();
            text
        }
        Length::ExactlyBadAtLast => {
            let mut text = bytes(&full(random, TEXT_MAX));
            text[TEXT_MAX - 2] = b'x';
            text
        }
        Length::OneLine(length) => one_line(length),
    }
}

fn securities_text(random: &mut Random, theme: Securities, words: &mut Vec<String>) -> Vec<Line> {
    let count = match theme {
        Securities::One => 1,
        Securities::Descending | Securities::Padded => 5,
        Securities::ByTurns => 2,
        Securities::Ends => 3,
        _ => SECURITIES_MAX,
    };
    let mut ids = some_ids(random, count);
    let more = other_id(random, &ids);
    let one_more = short_line(random, more);
    let bad = any_faulty_line(random, ids[0]);
    match theme {
        Securities::One => sheet(random, &ids),
        Securities::Most | Securities::MostAndMoreRows => {
            let rows = usize::from(matches!(theme, Securities::MostAndMoreRows));
            book(random, &ids, 1 + rows)
        }
        Securities::MostWithRows => book(random, &ids, ROWS_MAX),
        Securities::MostAndAnId => {
            words.push(more.to_string());
            book(random, &ids, 1)
        }
        Securities::OneMore => [book(random, &ids, 2), vec![one_more]].concat(),
        Securities::OneMoreThenBad => [book(random, &ids, 1), vec![one_more, bad]].concat(),
        Securities::BadThenOneMore => [book(random, &ids, 1), vec![bad, one_more]].concat(),
        Securities::OneMoreIsBad => {
            let mut bad = one_more;
            bad.fields[1] = b"31".to_vec();
            [book(random, &ids, 1), vec![bad]].concat()
        }
        Securities::OneMoreUnended => {
            let unended = Line {
                end: b"",
                ..one_more
            };
            [book(random, &ids, 1), vec![unended]].concat()
        }
        Securities::OneMoreThenRow | Securities::RowThenOneMore => {
            let mut lines = book(random, &ids, 1);
            lines.extend(book(random, &ids[7..8], ROWS_MAX - 1));
            let row = short_line(random, ids[7]);
            lines.extend(if matches!(theme, Securities::OneMoreThenRow) {
                [one_more, row]
            } else {
                [row, one_more]
            });
            lines
        }
        Securities::Descending => {
            ids.sort_unstable_by(|one, other| other.cmp(one));
            book(random, &ids, 3)
        }
        Securities::ByTurns => book(random, &ids, 5),
        Securities::Padded => {
            let mut lines = book(random, &ids, 2);
            for line in lines.iter_mut().step_by(2) {
                line.fields[0].insert(0, b'0');
            }
            lines
        }
        Securities::Ends => {
            let ends = [*ID.end(), *ID.start()];
            book(random, &ends, 2)
        }
    }
}

fn rows_text(random: &mut Random, theme: Rows, words: &mut Vec<String>) -> Vec<Line> {
    let ids = some_ids(random, 4);
    let mut lines = sheet(random, &ids[..2]);
    let full = |random: &mut Random, id: i64| -> Vec<Line> {
        (0..ROWS_MAX).map(|_| line(random, id)).collect()
    };
    let one_more = line(random, ids[2]);
    let bad = any_faulty_line(random, ids[3]);
    match theme {
        Rows::Of(rows) => lines.extend((0..rows).map(|_| line(random, ids[2]))),
        Rows::TwoFull => {
            let (first, second) = (full(random, ids[2]), full(random, ids[3]));
            let by_turns = first.into_iter().zip(second);
            lines.extend(by_turns.flat_map(|(one, other)| [one, other]));
        }
        Rows::OneMoreOfFirst => {
            let first = full(random, ids[2]);
            lines = [first, lines, vec![one_more]].concat();
        }
        Rows::OneMoreOfLater => {
            lines.extend(full(random, ids[2]));
            lines.push(one_more);
        }
        Rows::OneMoreThenBad => {
            lines.extend(full(random, ids[2]));
            lines.extend([one_more, bad]);
        }
        Rows::BadThenOneMore => {
            lines.push(bad);
            lines.extend(full(random, ids[2]));
            lines.push(one_more);
        }
        Rows::OneMoreUnended => {
            lines.extend(full(random, ids[2]));
            lines.push(Line {
                end: b"",
                ..one_more
            });
        }
        Rows::OneMoreGiven => {
            words.push(ids[2].to_string());
            lines.extend(full(random, ids[2]));
            lines.push(one_more);
        }
    }
    lines
}

fn bad_text(random: &mut Random, theme: BadLine, words: &mut Vec<String>) -> Vec<u8> {
    let ids = some_ids(random, 4);
    let mut lines = sheet(random, &ids);
    let count = lines.len();
    let mut bad = || any_faulty_line(random, ids[1]);
    match theme {
        BadLine::First => lines.insert(0, bad()),
        BadLine::Middle => lines.insert(count / 2, bad()),
        BadLine::Last => lines.push(bad()),
        BadLine::Two => {
            lines.insert(count / 2, bad());
            lines.push(bad());
        }
        BadLine::Unended => lines[count - 1].end = b"",
        BadLine::Line(line) => {
            let fields = line.split(|byte| *byte == b';').map(<[u8]>::to_vec);
            lines.insert(
                count / 2,
                Line {
                    fields: fields.collect(),
                    end: b"\n",
                },
            );
        }
        BadLine::WithIds => {
            lines.insert(count / 2, bad());
            words.push(other_id(random, &ids).to_string());
        }
    }
    bytes(&lines)
}

fn ids_text(random: &mut Random, theme: Ids, words: &mut Vec<String>) -> Vec<u8> {
    let ids = some_ids(random, 3);
    let lines = sheet(random, &ids);
    let (has, other) = (ids[1].to_string(), other_id(random, &ids).to_string());
    let given = match theme {
        Ids::None => Vec::new(),
        Ids::Has => vec![has],
        Ids::HasAlone => vec![ids[2].to_string(), has, ids[0].to_string()],
        Ids::HasNot => vec![other],
        Ids::Both => vec![other, has],
        Ids::TwiceHas => vec![has.clone(), has],
        Ids::TwiceHasNot => vec![other.clone(), has, other],
        Ids::Descending | Ids::Many => {
            let count = if matches!(theme, Ids::Many) {
                IDS_MAX
            } else {
                9
            };
            let mut given = some_ids(random, count + ids.len());
            given.retain(|id| !ids.contains(id));
            given.truncate(count);
            if matches!(theme, Ids::Descending) {
                given.sort_unstable_by(|one, other| other.cmp(one));
            }
            given.iter().map(i64::to_string).collect()
        }
        Ids::PaddedHas => vec![format!("000{has}")],
        Ids::TwoSpellings => vec![other.clone(), format!("0{other}")],
        Ids::Word(word) => vec![word.to_string(), has],
        Ids::Wraps => vec![((1 << 32) + ids[1]).to_string()],
    };
    words.extend(given);
    bytes(&lines)
}

fn words_of(random: &mut Random, theme: Words) -> Vec<String> {
    match theme {
        Words::Pairs(terms) => day(random, terms),
        Words::Day(word) => {
            let mut words = any_day(random);
            words[0] = word.to_string();
            words
        }
        Words::Pair(pair) => {
            let mut words = day(random, &[1]);
            words[7] = pair.to_string();
            words
        }
    }
}

/// A text of the exchange, asked as a night.
fn of_exchange(random: &mut Random) -> Night {
    let text = random.pick(&exchange_themes()).text(random);
    let mut words = any_day(random);
    // An exchange's id may have any size; a number of an evening may not.
    if text.id.parse::<i64>().map_or(false, |id| id >= 0) && random.chance(50) {
        words.push(text.id);
    }
    Night {
        words,
        bytes: text.bytes,
    }
}

/// So many texts: every theme once, then any text.
pub fn nights(seed: u64, count: usize) -> impl Iterator<Item = Night> {
    let mut random = Random::new(seed);
    let themes = themes();
    (0..count).map(move |number| match themes.get(number) {
        Some(theme) => theme.night(&mut random),
        None => of_exchange(&mut random),
    })
}

/// Writes each text to a file of the folder, and a line `WORD... FILE` for each.
pub fn write(seed: u64, count: usize, folder: &Path, mut index: impl Write) -> io::Result<()> {
    std::fs::create_dir_all(folder)?;
    for (number, night) in nights(seed, count).enumerate() {
        let file = folder.join(format!("{:04}", number + 1));
        std::fs::write(&file, &night.bytes)?;
        writeln!(index, "{} {}", night.words.join(" "), file.display())?;
    }
    index.flush()
}
