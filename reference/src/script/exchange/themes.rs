//! What a text is written for.

use crate::exchange::plain::{Fault, Field, CLOSE, LINE, PRICES, REPO, VOLUME};
use crate::exchange::TEXT_MAX;
use crate::random::Random;
use crate::units::ID;

use super::fields::{faulty, hundreds, spelled, value, Style};
use super::sheet::{line, line_with, Line, Sheet};
use super::Text;

/// The most rows of a security.
const ROWS: usize = 16;

/// What a text is written for.
#[derive(Clone, Copy)]
pub enum Theme {
    /// A line that is bad for one field.
    Fault(usize, Fault),
    /// A line that is bad as a whole.
    Line(BadLine),
    /// Rows of the asked id in many spellings.
    Values(Values),
    Rows(RowCount),
    Asked(Asked),
    /// Lines that end with LF, with CR LF, and with either.
    Ends(&'static [&'static [u8]]),
    Length(Length),
    Any,
}

#[derive(Clone, Copy)]
pub enum BadLine {
    Unended,
    UnendedAfterCr,
    UnendedAfterBad,
    Blank,
    BlankCr,
    OneFewer,
    OneMore,
    SemicolonBehind,
    SemicolonBefore,
    TwoCr,
    CrAlone,
    CrAfterLf,
    TradeCloseEmpty,
    TradeCloseZero,
    TradeCloseZeros,
}

#[derive(Clone, Copy)]
pub enum Values {
    Ends,
    LeadingZero,
    LeadingHundreds,
    RateDecimals,
    PriceDecimals,
    Others,
}

#[derive(Clone, Copy)]
pub enum RowCount {
    None,
    OneLess,
    Most,
    OneMore,
    OneMoreThenBad,
    OneMoreAfterBad,
    OneMoreIsBad,
    OneMoreUnended,
    MostAndMoreOfAnother,
}

#[derive(Clone, Copy)]
pub enum Asked {
    Absent,
    Zero,
    Most,
    OneAbove,
    PastSixtyFour,
    WrapsAt32,
    WrapsAt64,
    LeadingZeros,
    LineWraps,
}

#[derive(Clone, Copy)]
pub enum Length {
    Nothing,
    OneLess,
    Exactly,
    OneMore,
    OneMoreBad,
    Far,
    ExactlyUnended,
    ExactlyBadAtLast,
    OneLine,
    OneLineMore,
    LineFeeds,
    ShortLines,
}

/// Every theme once.
pub fn every() -> Vec<Theme> {
    let mut themes = Vec::new();
    for (place, field) in LINE.iter().enumerate() {
        let faults = Fault::ALL.iter().map(|(fault, _)| *fault);
        let of_field = faults.filter(|fault| fault.is_of(field));
        themes.extend(of_field.map(|fault| Theme::Fault(place, fault)));
    }
    themes.extend(BAD_LINES.map(Theme::Line));
    themes.extend(VALUES.map(Theme::Values));
    themes.extend(ROW_COUNTS.map(Theme::Rows));
    themes.extend(ASKED.map(Theme::Asked));
    themes.extend(ENDS.map(Theme::Ends));
    themes.extend(LENGTHS.map(Theme::Length));
    themes
}

const BAD_LINES: [BadLine; 15] = [
    BadLine::Unended,
    BadLine::UnendedAfterCr,
    BadLine::UnendedAfterBad,
    BadLine::Blank,
    BadLine::BlankCr,
    BadLine::OneFewer,
    BadLine::OneMore,
    BadLine::SemicolonBehind,
    BadLine::SemicolonBefore,
    BadLine::TwoCr,
    BadLine::CrAlone,
    BadLine::CrAfterLf,
    BadLine::TradeCloseEmpty,
    BadLine::TradeCloseZero,
    BadLine::TradeCloseZeros,
];
const VALUES: [Values; 6] = [
    Values::Ends,
    Values::LeadingZero,
    Values::LeadingHundreds,
    Values::RateDecimals,
    Values::PriceDecimals,
    Values::Others,
];
const ROW_COUNTS: [RowCount; 9] = [
    RowCount::None,
    RowCount::OneLess,
    RowCount::Most,
    RowCount::OneMore,
    RowCount::OneMoreThenBad,
    RowCount::OneMoreAfterBad,
    RowCount::OneMoreIsBad,
    RowCount::OneMoreUnended,
    RowCount::MostAndMoreOfAnother,
];
const ASKED: [Asked; 9] = [
    Asked::Absent,
    Asked::Zero,
    Asked::Most,
    Asked::OneAbove,
    Asked::PastSixtyFour,
    Asked::WrapsAt32,
    Asked::WrapsAt64,
    Asked::LeadingZeros,
    Asked::LineWraps,
];
const ENDS: [&[&[u8]]; 3] = [&[b"\n"], &[b"\r\n"], &[b"\n", b"\r\n"]];
const LENGTHS: [Length; 12] = [
    Length::Nothing,
    Length::OneLess,
    Length::Exactly,
    Length::OneMore,
    Length::OneMoreBad,
    Length::Far,
    Length::ExactlyUnended,
    Length::ExactlyBadAtLast,
    Length::OneLine,
    Length::OneLineMore,
    Length::LineFeeds,
    Length::ShortLines,
];

impl Theme {
    /// A text of the theme.
    pub fn text(self, random: &mut Random) -> Text {
        match self {
            Theme::Fault(place, fault) => fault_text(random, place, fault),
            Theme::Line(bad) => bad_line_text(random, bad),
            Theme::Values(values) => values_text(random, values),
            Theme::Rows(count) => rows_text(random, count),
            Theme::Asked(asked) => asked_text(random, asked),
            Theme::Ends(ends) => {
                let mut sheet = Sheet::new(random, 8, 4);
                for (number, line) in sheet.lines.iter_mut().enumerate() {
                    line.end = ends[number % ends.len()];
                }
                sheet.text()
            }
            Theme::Length(length) => length_text(random, length),
            Theme::Any => {
                let mut sheet = Sheet::any(random);
                sheet.end_lines(random);
                sheet.text()
            }
        }
    }
}

/// A line that is bad for one field.
fn faulty_line(random: &mut Random, id: i64, place: usize, fault: Fault) -> Line {
    let mut bad = line(random, id);
    bad.fields[place] = faulty(random, &LINE[place], fault);
    bad
}

/// A line with any one fault.
pub fn any_faulty_line(random: &mut Random, id: i64) -> Line {
    let place = random.below(LINE.len());
    let (fault, _) = random.pick(&Fault::ALL);
    let fault = if fault.is_of(&LINE[place]) {
        fault
    } else {
        Fault::Other
    };
    faulty_line(random, id, place, fault)
}

/// A sheet with a bad line, of the asked id or another. Now and then another
/// bad line, or more rows than there may be, comes after it.
fn fault_text(random: &mut Random, place: usize, fault: Fault) -> Text {
    let mut sheet = Sheet::any(random);
    sheet.end_lines(random);
    let id = random.pick(&[sheet.id, sheet.id, 5]);
    let bad = faulty_line(random, id, place, fault);
    let lines = sheet.lines.len();
    let at = random.pick(&[0, lines / 2, lines]);
    sheet.lines.insert(at, bad);
    if random.chance(30) {
        let later = any_faulty_line(random, sheet.id);
        sheet.lines.push(later);
    }
    if random.chance(10) {
        for _ in 0..=ROWS {
            let row = line(random, sheet.id);
            sheet.lines.push(row);
        }
    }
    sheet.text()
}

fn bad_line_text(random: &mut Random, bad: BadLine) -> Text {
    let mut sheet = Sheet::any(random);
    sheet.end_lines(random);
    let place = random.below(sheet.lines.len());
    let last = sheet.lines.len() - 1;
    match bad {
        BadLine::Unended => sheet.lines[last].end = b"",
        BadLine::UnendedAfterCr => sheet.lines[last].end = b"\r",
        BadLine::UnendedAfterBad => {
            let bad = any_faulty_line(random, sheet.id);
            sheet.lines.insert(place, bad);
            sheet.lines[last + 1].end = b"";
        }
        BadLine::Blank => sheet.lines.insert(place, blank(b"\n")),
        BadLine::BlankCr => sheet.lines.insert(place, blank(b"\r\n")),
        BadLine::OneFewer => {
            let field = random.below(LINE.len());
            sheet.lines[place].fields.remove(field);
        }
        BadLine::OneMore => {
            let field = random.below(LINE.len());
            let again = sheet.lines[place].fields[field].clone();
            sheet.lines[place].fields.insert(field, again);
        }
        BadLine::SemicolonBehind => sheet.lines[place].fields.push(Vec::new()),
        BadLine::SemicolonBefore => sheet.lines[place].fields.insert(0, Vec::new()),
        BadLine::TwoCr => sheet.lines[place].end = b"\r\r\n",
        BadLine::CrAlone => {
            let next = line(random, sheet.id);
            sheet.lines.insert(place, next);
            sheet.lines[place].end = b"\r";
        }
        BadLine::CrAfterLf => {
            let next = line(random, sheet.id);
            sheet.lines.insert(place, next);
            sheet.lines[place].end = b"\n\r";
        }
        BadLine::TradeCloseEmpty => traded(&mut sheet.lines[place], b""),
        BadLine::TradeCloseZero => traded(&mut sheet.lines[place], b"0"),
        BadLine::TradeCloseZeros => traded(&mut sheet.lines[place], b"000.000000"),
    }
    sheet.text()
}

fn blank(end: &'static [u8]) -> Line {
    Line {
        fields: Vec::new(),
        end,
    }
}

/// Gives a line a trade and a close.
fn traded(line: &mut Line, close: &[u8]) {
    line.fields[CLOSE] = close.to_vec();
    line.fields[VOLUME] = b"1".to_vec();
}

/// A row with a value at a place, in a style.
fn styled(random: &mut Random, id: i64, place: usize, value: i64, style: Style) -> Line {
    let bytes = spelled(&LINE[place], i128::from(value), style);
    line_with(random, id, place, value, bytes)
}

fn values_text(random: &mut Random, values: Values) -> Text {
    let others = random.below(3);
    let mut sheet = Sheet::new(random, 0, others);
    let id = sheet.id;
    let mut rows = Vec::new();
    match values {
        Values::Ends => {
            for (place, field) in LINE.iter().enumerate().skip(1) {
                for value in [*field.range.start(), *field.range.end()] {
                    rows.push(styled(random, id, place, value, Style::default()));
                }
            }
            // Ids of other lines are at their ends; the asked one may be one.
            for id in [*ID.start(), *ID.end()] {
                rows.push(line(random, id));
            }
        }
        Values::LeadingZero => {
            let zeros = 1 + random.below(3);
            rows.extend(zeros_rows(random, id, zeros));
        }
        Values::LeadingHundreds => {
            let zeros = hundreds(random);
            rows.extend(zeros_rows(random, id, zeros));
        }
        Values::RateDecimals => {
            for place in [2, REPO] {
                rows.extend(decimals_rows(random, id, place));
            }
        }
        Values::PriceDecimals => {
            for place in PRICES {
                rows.extend(decimals_rows(random, id, place));
            }
        }
        Values::Others => rows.extend(other_rows(random, id)),
    }
    for row in rows {
        sheet.insert(random, row);
    }
    sheet.end_lines(random);
    sheet.text()
}

/// A row for each field, with so many zeros before it.
fn zeros_rows(random: &mut Random, id: i64, zeros: usize) -> Vec<Line> {
    let style = Style {
        zeros,
        ..Style::default()
    };
    let row = |(place, field): (usize, &Field)| {
        let value = if place == 0 { id } else { value(random, field) };
        styled(random, id, place, value, style)
    };
    LINE.iter().enumerate().map(row).collect()
}

/// A row for each count of decimals of a field.
fn decimals_rows(random: &mut Random, id: i64, place: usize) -> Vec<Line> {
    let field = &LINE[place];
    let row = |decimals: usize| {
        let unit = 10_i64.pow((field.places - decimals) as u32);
        let value = value(random, field) / unit * unit;
        let value = if field.range.contains(&value) {
            value
        } else {
            unit
        };
        let style = Style {
            decimals,
            ..Style::default()
        };
        styled(random, id, place, value, style)
    };
    (0..=field.places).map(row).collect()
}

/// Missing prices, zeros past the fourth decimal, and repo rates about 0.
fn other_rows(random: &mut Random, id: i64) -> Vec<Line> {
    let mut rows = Vec::new();
    for place in PRICES {
        rows.push(line_with(random, id, place, 0, Vec::new()));
        for zeros_past in [1 + random.below(4), hundreds(random)] {
            let price = value(random, &LINE[place]);
            let style = Style {
                zeros_past,
                ..Style::default()
            };
            rows.push(styled(random, id, place, price, style));
        }
    }
    for (rate, bytes) in [
        (0, &b"-0"[..]),
        (0, b"-0.00"),
        (0, b"-000.0"),
        (-1, b"-0.01"),
        (-9_999, b"-0099.99"),
    ] {
        rows.push(line_with(random, id, REPO, rate, bytes.to_vec()));
    }
    rows
}

/// Texts with as many rows as there may be, or one more.
fn rows_text(random: &mut Random, count: RowCount) -> Text {
    let rows = match count {
        RowCount::None => 0,
        RowCount::OneLess => ROWS - 1,
        _ => ROWS,
    };
    let others = 1 + random.below(6);
    let mut sheet = Sheet::new(random, rows, others);
    sheet.end_lines(random);
    let one_more = line(random, sheet.id);
    let bad = any_faulty_line(random, sheet.id);
    match count {
        RowCount::None | RowCount::OneLess | RowCount::Most => {}
        RowCount::OneMore => sheet.insert(random, one_more),
        RowCount::OneMoreThenBad => sheet.lines.extend([one_more, bad]),
        RowCount::OneMoreAfterBad => {
            sheet.insert(random, bad);
            sheet.lines.push(one_more);
        }
        RowCount::OneMoreIsBad => {
            let place = 1 + random.below(LINE.len() - 1);
            let bad = faulty_line(random, sheet.id, place, Fault::Other);
            sheet.lines.push(bad);
        }
        RowCount::OneMoreUnended => sheet.lines.push(Line {
            end: b"",
            ..one_more
        }),
        RowCount::MostAndMoreOfAnother => {
            let other = sheet.id % *ID.end() + 1;
            for _ in 0..=ROWS {
                let row = line(random, other);
                sheet.insert(random, row);
            }
        }
    }
    sheet.text()
}

/// Texts of which another id is asked, or the same in another spelling.
fn asked_text(random: &mut Random, asked: Asked) -> Text {
    let mut sheet = Sheet::any(random);
    let id = i128::from(sheet.id);
    let most = i128::from(*ID.end());
    let asked_for = match asked {
        Asked::Absent => {
            let absent = Sheet::new(random, 0, 3 + ROWS);
            sheet.lines = absent.lines;
            return Text {
                id: absent.id.to_string(),
                bytes: sheet.bytes(),
            };
        }
        Asked::Zero => random
            .pick(&["0", "00", "000000000000000000000000000"])
            .to_string(),
        Asked::Most => {
            for line in &mut sheet.lines {
                line.fields[0] = most.to_string().into_bytes();
            }
            sheet.lines.truncate(ROWS);
            most.to_string()
        }
        Asked::OneAbove => (most + 1).to_string(),
        Asked::PastSixtyFour => format!("{}{id}", "9".repeat(20 + random.below(300))),
        Asked::WrapsAt32 => ((1 << 32) + id).to_string(),
        Asked::WrapsAt64 => ((1 << 64) + id).to_string(),
        Asked::LeadingZeros => format!("{}{id}", "0".repeat(hundreds(random))),
        Asked::LineWraps => {
            let wrapped = (1_i128 << 64) + id;
            let place = random.below(sheet.lines.len());
            sheet.lines[place].fields[0] = wrapped.to_string().into_bytes();
            id.to_string()
        }
    };
    Text {
        id: asked_for,
        bytes: sheet.bytes(),
    }
}

/// The shortest line of an id, with zeros before it so that it has so many
/// bytes.
fn long_line(id: i64, bytes: usize) -> Vec<u8> {
    let line = format!("{id};0;1;0;;;;0\n");
    [vec![b'0'; bytes - line.len()], line.into_bytes()].concat()
}

/// A good text of exactly so many bytes.
fn filled(random: &mut Random, length: usize) -> Text {
    // A line has fewer bytes than this, and the last is made to fit.
    const LINE_MOST: usize = 6_000;
    let mut sheet = Sheet::any(random);
    sheet.end_lines(random);
    let mut bytes = sheet.bytes();
    while bytes.len() + LINE_MOST < length {
        bytes.extend(sheet.other_line(random).bytes());
    }
    let other = sheet.id % *ID.end() + 1;
    bytes.extend(long_line(other, length - bytes.len()));
    Text {
        id: sheet.id.to_string(),
        bytes,
    }
}

fn length_text(random: &mut Random, length: Length) -> Text {
    let of_seven = |bytes: Vec<u8>| Text {
        id: "7".to_string(),
        bytes,
    };
    match length {
        Length::Nothing => of_seven(Vec::new()),
        Length::OneLess => filled(random, TEXT_MAX - 1),
        Length::Exactly => filled(random, TEXT_MAX),
        Length::OneMore => filled(random, TEXT_MAX + 1),
        Length::OneMoreBad => {
            let mut text = filled(random, TEXT_MAX + 1);
            text.bytes[0] = b'x';
            text
        }
        Length::Far => filled(random, 3 * TEXT_MAX + 7),
        Length::ExactlyUnended => {
            let mut text = filled(random, TEXT_MAX + 1);
            text.bytes.pop();
            text
        }
        Length::ExactlyBadAtLast => {
            let mut text = filled(random, TEXT_MAX);
            text.bytes[TEXT_MAX - 2] = b'x';
            text
        }
        Length::OneLine => of_seven(long_line(7, TEXT_MAX)),
        Length::OneLineMore => of_seven(long_line(7, TEXT_MAX + 1)),
        Length::LineFeeds => of_seven(vec![b'\n'; TEXT_MAX]),
        Length::ShortLines => {
            let mut bytes = b"8;0;1;0;;;;0\n".repeat(TEXT_MAX / 13 - 1);
            bytes.extend(long_line(7, TEXT_MAX - bytes.len()));
            of_seven(bytes)
        }
    }
}
