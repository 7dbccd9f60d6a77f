//! Which call a line is, and its numbers: one pass over its bytes (docs/EVENING.md, "Lines and words" to "A pair of
//! terms").

use reference::interest::{Pair, RepoBand};
use reference::kept::Kept;
use reference::words;

/// The numbers that are kept of a line: those that any call may have, and one more of an evaluation's rows.
const KEPT: usize = 126;
/// A number of so many digits fits 64 bits with either sign.
const SAFE_DIGITS: usize = 18;
/// The byte that begins the first word of a heading.
const HEADING: u8 = b'#';
/// A pair that is not kept is out of range.
const NOT_KEPT: RepoBand = RepoBand {
    rrcl: i64::MAX,
    rrch: i64::MIN,
};

#[derive(Clone, Copy, PartialEq, Eq)]
pub enum Call {
    Admit,
    Evaluate,
    Quote,
    Move,
    Open,
    Outside,
    Notice,
    Withdraw,
    Read,
    Interest,
    Bond,
}

impl Call {
    #[inline(always)]
    fn named(word: &[u8]) -> Option<Call> {
        Some(match word {
            b"quote" => Call::Quote,
            b"evaluate" => Call::Evaluate,
            b"move" => Call::Move,
            b"read" => Call::Read,
            b"open" => Call::Open,
            b"admit" => Call::Admit,
            b"outside" => Call::Outside,
            b"notice" => Call::Notice,
            b"withdraw" => Call::Withdraw,
            b"interest" => Call::Interest,
            b"bond" => Call::Bond,
            _ => return None,
        })
    }

    /// The places of RRCL among the numbers, where a pair may stand.
    fn pair_places(self) -> &'static [usize] {
        match self {
            Call::Evaluate => &[5, 8, 11],
            Call::Bond => &[9, 12, 15],
            _ => &[],
        }
    }
}

/// What a line says; its numbers stand beside it.
pub enum Line {
    /// Nothing but blanks, or a heading.
    Nothing,
    Bad,
    Call(Call),
}

/// The numbers of a line.
pub struct Numbers {
    kept: [i64; KEPT],
    /// How many there are, those that are not kept included.
    count: usize,
}

impl Numbers {
    pub fn new() -> Numbers {
        Numbers {
            kept: [0; KEPT],
            count: 0,
        }
    }

    /// Keeps a number at its place, if it has one.
    #[inline(always)]
    fn keep(&mut self, place: usize, number: i64) {
        if let Some(kept) = self.kept.get_mut(place) {
            *kept = number;
        }
    }

    #[inline(always)]
    pub fn kept(&self) -> &[i64] {
        &self.kept[..self.count.min(KEPT)]
    }
}

#[inline(always)]
fn is_blank(byte: u8) -> bool {
    matches!(byte, b' ' | b'\t' | b'\r')
}

#[inline(always)]
fn ends_word(byte: u8) -> bool {
    is_blank(byte) || byte == b'\n'
}

/// Reads the line that begins at `start`: what it says, and the place of its line feed, which is in the text. It is a
/// function of its own, and so is each rare path: inlined in its caller, its loops have too few registers.
#[inline(never)]
pub fn read(text: &[u8], start: usize, numbers: &mut Numbers, kept: &Kept) -> (Line, usize) {
    let mut first = start;
    while is_blank(text[first]) {
        first += 1;
    }
    let mut end = first;
    while !ends_word(text[end]) {
        end += 1;
    }
    if first == end {
        return (Line::Nothing, end);
    }
    match Call::named(&text[first..end]) {
        Some(call) => read_numbers(text, end, call, numbers, kept),
        None => no_call(text, first),
    }
}

/// A line whose first word names no call: a heading says nothing.
#[cold]
#[inline(never)]
fn no_call(text: &[u8], first: usize) -> (Line, usize) {
    let (line, end) = bad(text, first);
    match text[first] {
        HEADING => (Line::Nothing, end),
        _ => (line, end),
    }
}

/// A line that is no call, however it goes on.
#[cold]
#[inline(never)]
fn bad(text: &[u8], mut at: usize) -> (Line, usize) {
    while text[at] != b'\n' {
        at += 1;
    }
    (Line::Bad, at)
}

/// Reads a call's numbers, which begin at `at`.
#[inline(always)]
fn read_numbers(
    text: &[u8],
    mut at: usize,
    call: Call,
    numbers: &mut Numbers,
    kept: &Kept,
) -> (Line, usize) {
    let mut count = 0;
    loop {
        let byte = text[at];
        if byte <= b' ' {
            if byte == b'\n' {
                numbers.count = count;
                return (Line::Call(call), at);
            }
            if is_blank(byte) {
                at += 1;
                continue;
            }
        }
        let (number, end) = match number_at(text, at) {
            Some(read) => read,
            None => return bad(text, at),
        };
        let behind = text[end];
        if ends_word(behind) {
            numbers.keep(count, number);
            count += 1;
            // Most often a space is behind it, and the next number behind that.
            at = end + usize::from(behind == b' ');
        } else if call.pair_places().contains(&count) {
            let (RepoBand { rrcl, rrch }, end) = match band_at(text, end, number, kept) {
                Some(read) => read,
                None => return bad(text, end),
            };
            numbers.keep(count, rrcl);
            numbers.keep(count + 1, rrch);
            count += 2;
            at = end;
        } else {
            return bad(text, end);
        }
    }
}

/// The number that begins at `start`, and the place behind its digits.
#[inline(always)]
fn number_at(text: &[u8], start: usize) -> Option<(i64, usize)> {
    let is_negative = text[start] == b'-';
    let first = start + usize::from(is_negative);
    let mut end = first;
    let mut size = 0_i64;
    loop {
        let digit = i64::from(text[end]) - i64::from(b'0');
        if !(0..10).contains(&digit) {
            break;
        }
        size = size.wrapping_mul(10).wrapping_add(digit);
        end += 1;
    }
    let number = match end - first {
        0 => None,
        1..=SAFE_DIGITS => Some(if is_negative { -size } else { size }),
        _ => long_number(text, start, end),
    };
    Some((number?, end))
}

/// A number of more digits, of which some may be zeros before it.
#[cold]
#[inline(never)]
fn long_number(text: &[u8], start: usize, end: usize) -> Option<i64> {
    words::number(&text[start..end])
}

/// The band that is kept of a pair whose first number ends at `slash`, and the place behind the pair.
#[cold]
#[inline(never)]
fn band_at(text: &[u8], slash: usize, ym: i64, kept: &Kept) -> Option<(RepoBand, usize)> {
    if text[slash] != b'/' {
        return None;
    }
    let (yn, end) = number_at(text, slash + 1)?;
    let band = kept.band(Pair { ym, yn }).unwrap_or(NOT_KEPT);
    ends_word(text[end]).then_some((band, end))
}
