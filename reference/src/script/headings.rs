//! Headings in every form and at every place, and lines that look like one.

use crate::random::Random;
use crate::words::EVENING_LINE_MAX;

use super::spelling;

/// What a few lines are written for.
#[derive(Clone, Copy)]
pub enum Theme {
    Alone,
    CarriageReturn,
    /// Behind blanks.
    Indented(&'static [u8]),
    Twice,
    Date,
    /// A call right behind the sign, and behind a blank.
    Call,
    SpacedCall,
    Nul,
    High,
    /// So many bytes.
    Long(usize),
    /// The sign behind so many blanks.
    LongIndent(usize),
    /// Before a line of so many bytes.
    BeforeLong(usize),
    AfterLong,
    BeforeBlank,
    AfterBlank,
    BeforeBad,
    BeforeCall,
    TwoHeadings,
    /// No headings: the sign behind the words of a call, at a number, at the
    /// call's word, behind other bytes than blanks.
    LastWord,
    BehindNumber,
    BeforeNumber,
    BehindVerb,
    Behind(&'static [u8]),
    /// No heading: what begins one elsewhere.
    Elsewhere(&'static [u8]),
}

/// Every theme once.
pub const THEMES: [Theme; 37] = [
    Theme::Alone,
    Theme::CarriageReturn,
    Theme::Indented(b" "),
    Theme::Indented(b"\t"),
    Theme::Indented(b"\r"),
    Theme::Indented(b" \t  \r"),
    Theme::Twice,
    Theme::Date,
    Theme::Call,
    Theme::SpacedCall,
    Theme::Nul,
    Theme::High,
    Theme::Long(EVENING_LINE_MAX),
    Theme::Long(EVENING_LINE_MAX + 1),
    Theme::LongIndent(EVENING_LINE_MAX - 1),
    Theme::LongIndent(EVENING_LINE_MAX),
    Theme::BeforeLong(EVENING_LINE_MAX),
    Theme::BeforeLong(EVENING_LINE_MAX + 1),
    Theme::AfterLong,
    Theme::BeforeBlank,
    Theme::AfterBlank,
    Theme::BeforeBad,
    Theme::BeforeCall,
    Theme::TwoHeadings,
    Theme::LastWord,
    Theme::BehindNumber,
    Theme::BeforeNumber,
    Theme::BehindVerb,
    Theme::Behind(b"\xef\xbb\xbf"),
    Theme::Behind(b"\x0b"),
    Theme::Behind(b"\0"),
    Theme::Behind(b"-"),
    Theme::Behind(b"\""),
    Theme::Elsewhere(b"//"),
    Theme::Elsewhere(b";"),
    Theme::Elsewhere(b"--"),
    Theme::Elsewhere(b"\xef\xbc\x83"),
];

impl Theme {
    fn is_long(self) -> bool {
        use Theme::{AfterLong, BeforeLong, Long, LongIndent};
        matches!(self, Long(_) | LongIndent(_) | BeforeLong(_) | AfterLong)
    }

    /// Any theme, a long one seldom.
    pub fn any(random: &mut Random) -> Theme {
        let drawn = random.pick(&THEMES);
        if drawn.is_long() && random.chance(90) {
            return Theme::Date;
        }
        drawn
    }

    /// The theme's lines; `call` is a line that may be taken for a call.
    pub fn lines(self, random: &mut Random, call: &[u8]) -> Vec<Vec<u8>> {
        let date = any(random);
        let with = |parts: &[&[u8]]| vec![parts.concat()];
        match self {
            Theme::Alone => with(&[b"#"]),
            Theme::CarriageReturn => with(&[b"#\r"]),
            Theme::Indented(blanks) => with(&[blanks, &date]),
            Theme::Twice => with(&[b"#", &date]),
            Theme::Date => vec![date],
            Theme::Call => with(&[b"#", unindented(call)]),
            Theme::SpacedCall => with(&[b"# ", call]),
            Theme::Nul => with(&[&date, b"\0", call]),
            Theme::High => with(&[&date, b" \xd0\xb2\xd0\xb5\xd1\x87\xd0\xb5\xd1\x80\xff"]),
            Theme::Long(bytes) => vec![filled(date, bytes, b'#')],
            Theme::LongIndent(blanks) => with(&[&vec![b' '; blanks], b"#"]),
            Theme::BeforeLong(bytes) => vec![date, filled(call.to_vec(), bytes, b' ')],
            Theme::AfterLong => vec![filled(call.to_vec(), EVENING_LINE_MAX + 1, b' '), date],
            Theme::BeforeBlank => vec![date, spelling::blank(random)],
            Theme::AfterBlank => vec![spelling::blank(random), date],
            Theme::BeforeBad => vec![date, b"hello".to_vec()],
            Theme::BeforeCall => vec![date, call.to_vec()],
            Theme::TwoHeadings => vec![date.clone(), date],
            Theme::LastWord => with(&[call, b" # ", &date]),
            Theme::BehindNumber => with(&[b"read 7", &date]),
            Theme::BeforeNumber => with(&[b"read #7"]),
            Theme::BehindVerb => with(&[b"read# 7"]),
            Theme::Behind(bytes) => with(&[bytes, &date]),
            Theme::Elsewhere(sign) => with(&[sign, b" ", call]),
        }
    }
}

/// A heading as a caseworker writes one.
pub fn any(random: &mut Random) -> Vec<u8> {
    let plain = [
        &b"# 17 November, the evening"[..],
        b"#17.11.",
        b"# admissions of today: 3",
        b"#",
        b"#\t7",
        b"# # #",
        b"#1 2 3",
        b"#-------------------------",
    ];
    random.pick(&plain).to_vec()
}

/// A line of so many bytes, or of its own where it has more.
fn filled(mut line: Vec<u8>, bytes: usize, filling: u8) -> Vec<u8> {
    line.resize(bytes.max(line.len()), filling);
    line
}

/// A line without the blanks before its first word.
fn unindented(line: &[u8]) -> &[u8] {
    let is_blank = |byte: &u8| b" \t\r".contains(byte);
    let first = line.iter().position(|byte| !is_blank(byte));
    &line[first.unwrap_or(line.len())..]
}
