//! Counts how often a script of the evening meets each edge of a heading, a line
//! whose first word begins with `#`: its forms, its places, and lines that are
//! none though they have the sign.

use std::io::{self, BufRead};

use crate::count::Count;
use crate::tally::{names, Edge, Tally};
use crate::words::{words, EVENING, EVENING_LINE_MAX};

/// The words of the calls.
const CALLS: [&[u8]; 11] = [
    b"admit",
    b"evaluate",
    b"quote",
    b"move",
    b"open",
    b"outside",
    b"notice",
    b"withdraw",
    b"read",
    b"interest",
    b"bond",
];

/// A line of a script, without its end, and the lines beside it.
struct SeenLine<'s> {
    line: &'s [u8],
    before: Option<&'s [u8]>,
    after: Option<&'s [u8]>,
}

fn is_blank(line: &[u8]) -> bool {
    line.len() <= EVENING_LINE_MAX && words(line).next().is_none()
}

fn is_heading(line: &[u8]) -> bool {
    !EVENING.is_answered(line) && !is_blank(line)
}

impl SeenLine<'_> {
    fn word(&self, place: usize) -> &[u8] {
        words(self.line).nth(place).unwrap_or_default()
    }

    fn is_heading(&self) -> bool {
        is_heading(self.line)
    }

    /// A heading that is as told.
    fn heads(&self, is: impl Fn(&[u8]) -> bool) -> bool {
        self.is_heading() && is(self.line)
    }

    /// A heading, and the line behind it is as told.
    fn is_before(&self, is: impl Fn(&[u8]) -> bool) -> bool {
        self.is_heading() && self.after.map_or(false, is)
    }

    /// A heading, and the line before it is as told.
    fn is_after(&self, is: impl Fn(&[u8]) -> bool) -> bool {
        self.is_heading() && self.before.map_or(false, is)
    }

    /// Has the sign, is answered, and is not too long; its first word is as told.
    fn is_none(&self, is: impl Fn(&[u8]) -> bool) -> bool {
        let has_sign = self.line.contains(&b'#') && self.line.len() <= EVENING_LINE_MAX;
        has_sign && EVENING.is_answered(self.line) && is(self.word(0))
    }
}

fn is_call(word: &[u8]) -> bool {
    CALLS.contains(&word)
}

fn edges<'s>() -> Vec<Edge<SeenLine<'s>>> {
    vec![
        ("a heading as the first line", |l| {
            l.is_heading() && l.before.is_none()
        }),
        ("a heading as the last line", |l| {
            l.is_heading() && l.after.is_none()
        }),
        ("the sign alone", |l| l.line == b"#"),
        ("the sign and a CR", |l| l.line == b"#\r"),
        ("behind a space", |l| l.heads(|line| line.starts_with(b" "))),
        ("behind a tab", |l| l.heads(|line| line.starts_with(b"\t"))),
        ("behind a CR", |l| l.heads(|line| line.starts_with(b"\r"))),
        ("the sign twice", |l| {
            l.is_heading() && l.word(0).starts_with(b"##")
        }),
        ("a call right behind the sign", |l| {
            l.is_heading() && is_call(&l.word(0)[1..])
        }),
        ("a call behind the sign and a blank", |l| {
            l.is_heading() && l.word(0) == b"#" && is_call(l.word(1))
        }),
        ("a NUL in a heading", |l| l.heads(|line| line.contains(&0))),
        ("a byte above 127 in a heading", |l| {
            l.heads(|line| line.iter().any(|byte| *byte > 127))
        }),
        ("a heading of the most bytes", |l| {
            l.heads(|line| line.starts_with(b"#") && line.len() == EVENING_LINE_MAX)
        }),
        ("one byte more than the most, which is no heading", |l| {
            l.line.starts_with(b"#") && l.line.len() == EVENING_LINE_MAX + 1
        }),
        ("the sign as the last of the most bytes", |l| {
            l.word(0) == b"#" && l.line.ends_with(b" #") && l.line.len() == EVENING_LINE_MAX
        }),
        ("the sign as one byte more than the most", |l| {
            l.word(0) == b"#" && l.line.ends_with(b" #") && l.line.len() == EVENING_LINE_MAX + 1
        }),
        ("before a line of the most bytes", |l| {
            l.is_before(|line| line.len() == EVENING_LINE_MAX)
        }),
        ("before a line that is too long", |l| {
            l.is_before(|line| line.len() > EVENING_LINE_MAX)
        }),
        ("behind a line that is too long", |l| {
            l.is_after(|line| line.len() > EVENING_LINE_MAX)
        }),
        ("before a blank line", |l| l.is_before(is_blank)),
        ("behind a blank line", |l| l.is_after(is_blank)),
        ("before a call", |l| {
            l.is_before(|line| words(line).next().map_or(false, is_call))
        }),
        ("before a line of another word", |l| {
            l.is_before(|line| words(line).next() == Some(b"hello"))
        }),
        ("behind a heading", |l| l.is_after(is_heading)),
        ("no heading: the sign as a later word of a call", |l| {
            l.is_none(is_call) && words(l.line).skip(1).any(|word| word == b"#")
        }),
        ("no heading: the sign right behind a number", |l| {
            l.is_none(is_call) && l.word(1).starts_with(b"7#")
        }),
        ("no heading: the sign right before a number", |l| {
            l.is_none(is_call) && l.word(1) == b"#7"
        }),
        ("no heading: the sign right behind a call", |l| {
            l.is_none(|word| word.ends_with(b"#") && is_call(&word[..word.len() - 1]))
        }),
        ("no heading: the sign behind a byte order mark", |l| {
            l.is_none(|word| word.starts_with(b"\xef\xbb\xbf#"))
        }),
        ("no heading: the sign behind a vertical tab", |l| {
            l.is_none(|word| word.starts_with(b"\x0b#"))
        }),
        ("no heading: the sign behind a NUL", |l| {
            l.is_none(|word| word.starts_with(b"\0#"))
        }),
        ("no heading: the sign behind a minus", |l| {
            l.is_none(|word| word.starts_with(b"-#"))
        }),
        ("no heading: another sign before a call", |l| {
            [&b"//"[..], b";", b"--"].contains(&l.word(0)) && is_call(l.word(1))
        }),
    ]
}

/// Counts the edges that a script meets.
pub fn count_headings(mut input: impl BufRead) -> io::Result<Count> {
    let mut script = Vec::new();
    input.read_to_end(&mut script)?;
    let mut lines: Vec<&[u8]> = script.split(|byte| *byte == b'\n').collect();
    // Behind the last line feed there is no line.
    if lines.last() == Some(&&b""[..]) {
        lines.pop();
    }
    let mut tally = Tally::new(names(edges()));
    let edges = edges();
    for (place, line) in lines.iter().enumerate() {
        let seen = SeenLine {
            line,
            before: place.checked_sub(1).map(|place| lines[place]),
            after: lines.get(place + 1).copied(),
        };
        tally.look(&edges, &seen);
    }
    Ok(tally.count())
}
