//! What a stream is written for.

use crate::message::{Kind, LENGTH, LENGTH_BYTES};
use crate::random::Random;
use crate::stream::whole;

use super::bounds::{messages, Bound, BOUNDS};
use super::damage::{any_unknown_kind, damaged, unknown, WrongLength, WRONG_LENGTHS};
use super::last::{Last, Past, PASTS};
use super::messages::{level, message, message_with, BROKEN};

/// Messages of a stream whose end is far from its start.
const FAR: usize = 1_500;

/// What a stream is written for.
#[derive(Clone, Copy)]
pub enum Theme {
    /// Nothing but these bytes.
    Bytes(&'static [u8]),
    Alone(Kind),
    /// Every field at both ends of its range, and what may be equal is.
    Ends(Kind),
    /// Unknown kinds of every length, a good message behind each.
    EveryLength,
    /// A good stream of more than 65,536 bytes.
    Long,
    /// This end of a stream far from its start.
    Far(Last),
    /// This end behind no message or a few.
    Ended(Last),
    /// Streams that begin and end.
    Bounded(Bound),
    /// A stream of any messages, mostly with any damage.
    Any,
}

/// Streams of few bytes, each refused at its start but for the empty one.
const BYTES: [&[u8]; 9] = [
    b"",
    &[0],
    &[0, 0, 0],
    &[0, 0, 0, 0],
    &[1, 0, 0, 0],
    &[2, 0, 0, 0],
    &[0, 16, 0, 0],
    &[1, 16, 0, 0],
    &[0xff, 0xff, 0xff, 0xff],
];

/// Unknown kinds: beside the known ones, at the ends, and known ones if one byte
/// of them alone is read or their bytes are exchanged.
const UNKNOWN_KINDS: [u16; 15] = [
    0, 9, 10, 255, 256, 257, 258, 259, 260, 512, 768, 1_024, 1_792, 32_769, 65_535,
];

/// Lengths of unknown kinds: the ends, and those of known kinds.
const UNKNOWN_LENGTHS: [usize; 10] = [2, 3, 4, 14, 62, 94, 98, 102, 4_095, 4_096];

/// Refusals of each number.
const REFUSED: [Last; 3] = [
    Last::Cut(Kind::Move, 65),
    Last::WrongLength(Kind::Bands, WrongLength::OneMore),
    Last::Past(Kind::Rates, 0, Past::OneAbove),
];

/// Every theme once.
pub fn every() -> Vec<Theme> {
    let mut themes: Vec<Theme> = BYTES.map(Theme::Bytes).to_vec();
    themes.extend([Theme::EveryLength, Theme::Long]);
    themes.extend(REFUSED.map(Theme::Far));
    for kind in Kind::ALL {
        themes.push(Theme::Alone(kind));
        // An end is accepted behind its own stream alone.
        if kind != Kind::End {
            themes.push(Theme::Ends(kind));
        }
    }
    themes.extend(BOUNDS.map(Theme::Bounded));
    themes.extend(every_last().into_iter().map(Theme::Ended));
    themes
}

/// Every end of a stream once.
fn every_last() -> Vec<Last> {
    let mut every: Vec<Last> = Kind::ALL.into_iter().flat_map(of_kind).collect();
    every.extend(BROKEN.map(Last::Broken));
    every.extend(UNKNOWN_KINDS.map(|kind| Last::Unknown(kind, 2 + usize::from(kind % 90))));
    every.extend(UNKNOWN_LENGTHS.map(|length| Last::Unknown(9, length)));
    every.extend(UNKNOWN_LENGTHS.map(Last::UnknownCut));
    every
}

fn of_kind(kind: Kind) -> Vec<Last> {
    let mut every = vec![
        Last::CutAndPast(kind),
        Last::CutAndWrongLength(kind),
        Last::WrongLengthAndPast(kind),
    ];
    for (place, field) in kind.fields().iter().enumerate() {
        let past = PASTS.into_iter().filter(|past| past.is_of(field));
        every.extend(past.map(|past| Last::Past(kind, place, past)));
    }
    every.extend((1..LENGTH_BYTES + kind.length()).map(|bytes| Last::Cut(kind, bytes)));
    every.extend(WRONG_LENGTHS.map(|length| Last::WrongLength(kind, length)));
    every
}

impl Theme {
    pub fn stream(self, random: &mut Random) -> Vec<u8> {
        match self {
            Theme::Bytes(bytes) => bytes.to_vec(),
            Theme::Alone(kind) => message(random, kind).bytes(),
            Theme::Ends(kind) => ends(random, kind),
            Theme::EveryLength => every_length(random),
            Theme::Long => messages(random, FAR).concat(),
            Theme::Far(last) => [messages(random, FAR).concat(), last.bytes(random)].concat(),
            Theme::Ended(last) => {
                let count = random.pick(&[0, 0, 0, 1, 2, 3]);
                [messages(random, count).concat(), last.bytes(random)].concat()
            }
            Theme::Bounded(bound) => bound.stream(random),
            Theme::Any => {
                let count = random.below(12);
                let inner = messages(random, count);
                let stream = if random.chance(50) {
                    whole(&inner)
                } else {
                    inner.concat()
                };
                if random.chance(20) {
                    return stream;
                }
                damaged(random, stream)
            }
        }
    }
}

fn ends(random: &mut Random, kind: Kind) -> Vec<u8> {
    let mut stream = Vec::new();
    for (place, field) in kind.fields().iter().enumerate() {
        for end in [*field.range.start(), *field.range.end()] {
            stream.extend(message_with(random, kind, place, end).bytes());
        }
    }
    if kind == Kind::Statics {
        stream.extend(level(random).bytes());
    }
    stream
}

fn every_length(random: &mut Random) -> Vec<u8> {
    let mut stream = Vec::new();
    for length in LENGTH {
        let kind = any_unknown_kind(random);
        stream.extend(unknown(random, kind, length));
        stream.extend(message(random, Kind::Move).bytes());
    }
    stream
}
