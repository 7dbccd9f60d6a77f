//! Lines of words and numbers, and the loop that answers them.

use std::fmt::{self, Display};
use std::io::{self, BufRead, Write};

use crate::interest::Pair;

/// The most bytes that an evening's line may have, its line feed aside: a longer
/// one is no call.
pub const EVENING_LINE_MAX: usize = 65_535;

/// How the lines of a text are heard.
#[derive(Clone, Copy, Debug)]
pub struct Manner {
    /// The most bytes of a line, its line feed aside: a longer one is no call.
    bytes_max: usize,
    /// The byte that begins the first word of a heading, which says nothing.
    heading: Option<u8>,
}

pub const EVENING: Manner = Manner {
    bytes_max: EVENING_LINE_MAX,
    heading: Some(b'#'),
};

/// A gateway's line may have any number of bytes, and there are no headings.
pub const GATEWAY: Manner = Manner {
    bytes_max: usize::MAX,
    heading: None,
};

impl Manner {
    fn is_too_long(&self, line: &[u8]) -> bool {
        line.strip_suffix(b"\n").unwrap_or(line).len() > self.bytes_max
    }

    /// The first word of a line that says something, and the words behind it.
    fn first_word<'l>(&self, line: &'l [u8]) -> Option<(&'l [u8], impl Iterator<Item = &'l [u8]>)> {
        let mut words = words(line);
        let first = words.next()?;
        let is_heading = self.heading.is_some() && self.heading.as_ref() == first.first();
        (!is_heading).then_some((first, words))
    }

    /// Whether a line has an answer: it is too long, or it says something.
    pub fn is_answered(&self, line: &[u8]) -> bool {
        self.is_too_long(line) || self.first_word(line).is_some()
    }
}

/// Whether a byte parts words; a carriage return does too.
fn is_blank(byte: u8) -> bool {
    matches!(byte, b' ' | b'\t' | b'\r' | b'\n')
}

/// The words of a line.
pub fn words(line: &[u8]) -> impl Iterator<Item = &[u8]> {
    line.split(|byte| is_blank(*byte))
        .filter(|word| !word.is_empty())
}

/// A decimal number with an optional minus that fits 64 bits.
pub fn number(word: &[u8]) -> Option<i64> {
    let (sign, digits) = match word {
        [b'-', digits @ ..] => (-1, digits),
        digits => (1, digits),
    };
    if digits.is_empty() {
        return None;
    }
    digits.iter().try_fold(0_i64, |value, byte| {
        let digit = byte.is_ascii_digit().then(|| i64::from(byte - b'0'))?;
        value.checked_mul(10)?.checked_add(sign * digit)
    })
}

/// A word of an evening's call: a number, or two with a slash between them.
#[derive(Clone, Copy, Debug, PartialEq, Eq)]
pub enum Word {
    Number(i64),
    Pair(Pair),
}

impl Word {
    /// The number, where it is one.
    pub fn number(self) -> Option<i64> {
        match self {
            Word::Number(number) => Some(number),
            Word::Pair(_) => None,
        }
    }

    /// The pair, where it is one.
    pub fn pair(self) -> Option<Pair> {
        match self {
            Word::Number(_) => None,
            Word::Pair(pair) => Some(pair),
        }
    }
}

impl fmt::Display for Word {
    fn fmt(&self, f: &mut fmt::Formatter<'_>) -> fmt::Result {
        match self {
            Word::Number(number) => number.fmt(f),
            Word::Pair(Pair { ym, yn }) => write!(f, "{ym}/{yn}"),
        }
    }
}

impl From<i64> for Word {
    fn from(number: i64) -> Word {
        Word::Number(number)
    }
}

/// A number or a pair.
pub fn number_or_pair(word: &[u8]) -> Option<Word> {
    number(word)
        .map(Word::Number)
        .or_else(|| pair(word).map(Word::Pair))
}

/// Two numbers with a slash between them.
fn pair(word: &[u8]) -> Option<Pair> {
    let slash = word.iter().position(|byte| *byte == b'/')?;
    Some(Pair {
        ym: number(&word[..slash])?,
        yn: number(&word[slash + 1..])?,
    })
}

/// Reads every word into `heard`; none where one cannot be read.
fn read_words<'a, W>(
    words: impl Iterator<Item = &'a [u8]>,
    heard: &mut Vec<W>,
    read: impl Fn(&[u8]) -> Option<W>,
) -> Option<&[W]> {
    heard.clear();
    for word in words {
        heard.push(read(word)?);
    }
    Some(heard)
}

/// What a line says.
#[derive(Debug, PartialEq, Eq)]
pub enum Heard<A> {
    /// Nothing but blanks, or a heading: no answer.
    Nothing,
    /// No call at all.
    Bad,
    Answer(A),
}

/// Hears one line: its first word and the others as `read` takes them go to
/// `answer`, which gives none where they are no call.
pub fn hear<W, A>(
    line: &[u8],
    manner: &Manner,
    heard: &mut Vec<W>,
    read: impl Fn(&[u8]) -> Option<W>,
    answer: impl FnOnce(&[u8], &[W]) -> Option<A>,
) -> Heard<A> {
    if manner.is_too_long(line) {
        return Heard::Bad;
    }
    let (verb, words) = match manner.first_word(line) {
        Some(said) => said,
        None => return Heard::Nothing,
    };
    let said = read_words(words, heard, read).and_then(|words| answer(verb, words));
    said.map_or(Heard::Bad, Heard::Answer)
}

/// Answers every line of the input: one line a call, `bad LINE` for what is
/// no call, nothing for a blank line or a heading. Lines are counted from 1.
pub fn serve<W, A: Display>(
    mut input: impl BufRead,
    mut output: impl Write,
    manner: &Manner,
    read: impl Fn(&[u8]) -> Option<W>,
    mut answer: impl FnMut(&[u8], &[W]) -> Option<A>,
) -> io::Result<()> {
    let mut line = Vec::new();
    let mut heard = Vec::new();
    let mut count = 0_u64;
    while input.read_until(b'\n', &mut line)? > 0 {
        count += 1;
        match hear(&line, manner, &mut heard, &read, &mut answer) {
            Heard::Nothing => {}
            Heard::Bad => writeln!(output, "bad {count}")?,
            Heard::Answer(said) => writeln!(output, "{said}")?,
        }
        line.clear();
    }
    output.flush()
}

#[cfg(test)]
mod tests {
    use super::*;

    #[test]
    fn numbers_are_decimal_with_an_optional_minus() {
        assert_eq!(number(b"0"), Some(0));
        assert_eq!(number(b"-0"), Some(0));
        assert_eq!(number(b"007"), Some(7));
        assert_eq!(number(b"-00000000000000000000000000012"), Some(-12));
        assert_eq!(number(b"9223372036854775807"), Some(i64::MAX));
        assert_eq!(number(b"-9223372036854775808"), Some(i64::MIN));
    }

    #[test]
    fn a_line_past_its_most_bytes_is_no_call() {
        let said = |bytes: usize, end: &[u8]| {
            let line = [vec![b' '; bytes].as_slice(), end].concat();
            hear(&line, &EVENING, &mut Vec::new(), number, |_, _| Some(()))
        };
        assert_eq!(said(EVENING_LINE_MAX, b"\n"), Heard::Nothing);
        assert_eq!(said(EVENING_LINE_MAX - 1, b"#\n"), Heard::Nothing);
        assert_eq!(said(EVENING_LINE_MAX, b"#\n"), Heard::Bad);
        assert_eq!(said(EVENING_LINE_MAX + 1, b""), Heard::Bad);
        assert_eq!(said(EVENING_LINE_MAX - 1, b"x\n"), Heard::Answer(()));
        assert_eq!(said(EVENING_LINE_MAX, b"x\n"), Heard::Bad);
    }

    #[test]
    fn a_heading_says_nothing_in_an_evening() {
        let said = |line: &[u8], manner: &Manner| {
            hear(line, manner, &mut Vec::new(), number, |_, _| Some(()))
        };
        for line in [&b"#"[..], b" \t\r# x", b"#read 7", b"##", b"#\0\xff\n"] {
            assert_eq!(said(line, &EVENING), Heard::Nothing);
            assert!(!EVENING.is_answered(line));
            assert_ne!(said(line, &GATEWAY), Heard::Nothing);
            assert!(GATEWAY.is_answered(line));
        }
        for line in [&b"read 7 #"[..], b"read #7", b"read 7#", b"\x0b#"] {
            assert_ne!(said(line, &EVENING), Heard::Nothing);
            assert!(EVENING.is_answered(line));
        }
    }

    #[test]
    fn anything_else_is_no_number() {
        for word in [
            "",
            "-",
            "+5",
            "--1",
            "1.0",
            "1-",
            "0x10",
            "1e3",
            "1_0",
            "٣",
            "9223372036854775808",
            "-9223372036854775809",
            "99999999999999999999999999",
        ] {
            assert_eq!(number(word.as_bytes()), None, "{word}");
        }
        assert_eq!(number(b"\xff"), None);
        assert_eq!(number(b"1\0"), None);
    }

    #[test]
    fn a_slash_makes_a_pair() {
        let pair = |ym, yn| Some(Word::Pair(Pair { ym, yn }));
        assert_eq!(number_or_pair(b"7"), Some(Word::Number(7)));
        assert_eq!(number_or_pair(b"0/1"), pair(0, 1));
        assert_eq!(number_or_pair(b"-0/001"), pair(0, 1));
        assert_eq!(number_or_pair(b"-2/-1"), pair(-2, -1));
        assert_eq!(
            number_or_pair(b"9223372036854775807/-9223372036854775808"),
            pair(i64::MAX, i64::MIN)
        );
        for word in [
            "/",
            "0/",
            "/1",
            "0/1/2",
            "0//1",
            "0/-",
            "-/1",
            "0/+1",
            "0\\1",
            "0/9223372036854775808",
        ] {
            assert_eq!(number_or_pair(word.as_bytes()), None, "{word}");
        }
    }

    #[test]
    fn blanks_part_words() {
        let found: Vec<&[u8]> = words(b" \tread  1\t2\r\n").collect();
        assert_eq!(found, [&b"read"[..], b"1", b"2"]);
        assert_eq!(words(b" \t\r\n").count(), 0);
    }
}
