//! Counts how often streams of messages meet each edge of W-212: unknown kinds
//! and what stands before a refused message; (`lengths`) cuts and lengths of
//! every kind; (`fields`) both ends of every field, orders and multiples;
//! (`bounds`) where streams begin and end.

mod bounds;
mod fields;
mod lengths;

use std::io::{self, BufRead};

use crate::count::Count;
use crate::listen::{each, turns, Said, Turn};
use crate::message::{length_at, numbers, Heard, Kind, Message};
use crate::message::{KIND_BYTES, LENGTH, LENGTH_BYTES};
use crate::refusal::Refusal;
use crate::tally::{names, Edge, Tally};

/// Where the fields of a message begin.
const FIELDS_PLACE: usize = LENGTH_BYTES + KIND_BYTES;
/// From here on a place is far from the start of the input.
const FAR: usize = 65_536;
/// So many messages in a row are several.
const SEVERAL: usize = 3;

/// A stream, and what a reader says of it.
struct SeenStream {
    bytes: Vec<u8>,
    turns: Vec<Turn>,
}

/// A refused message, with all that is left of the stream.
struct Bad<'s> {
    refusal: Refusal,
    place: usize,
    rest: &'s [u8],
}

impl Bad<'_> {
    /// What its length says, where that is there.
    fn length(&self) -> Option<usize> {
        length_at(self.rest)
    }

    /// Its kind, where that is there and known.
    fn kind(&self) -> Option<Kind> {
        let kind = self.rest.get(LENGTH_BYTES..FIELDS_PLACE)?;
        Kind::from_number(u16::from_le_bytes([kind[0], kind[1]]))
    }

    /// The message of its kind, if all bytes of its fields are there, whatever
    /// the length says.
    fn message(&self) -> Option<Message> {
        let kind = self.kind()?;
        let fields = self.rest.get(FIELDS_PLACE..LENGTH_BYTES + kind.length())?;
        Some(Message::new(kind, numbers(kind, fields)))
    }
}

impl SeenStream {
    fn new(bytes: Vec<u8>) -> SeenStream {
        let turns = turns(&bytes);
        SeenStream { bytes, turns }
    }

    /// The message at which the reader stops.
    fn bad(&self) -> Option<Bad<'_>> {
        let last = self.turns.last()?;
        match last.said {
            Said::Refused(refusal) => Some(Bad {
                refusal,
                place: last.place,
                rest: &self.bytes[last.place..],
            }),
            _ => None,
        }
    }

    fn is_bad(&self, is: impl Fn(&Bad) -> bool) -> bool {
        self.bad().map_or(false, |bad| is(&bad))
    }

    fn is_good(&self) -> bool {
        self.bad().is_none()
    }

    /// The messages that are accepted.
    fn messages(&self) -> impl Iterator<Item = &Message> {
        self.turns.iter().filter_map(Turn::message)
    }

    /// The unknown messages that an accepted one follows: kinds and lengths.
    fn skipped(&self) -> Vec<(u16, usize)> {
        let pairs = self.turns.windows(2);
        let skipped = pairs.filter_map(|pair| match (&pair[0].said, &pair[1].said) {
            (Said::Heard(Heard::Unknown { kind, length }), Said::Heard(Heard::Message(_))) => {
                Some((*kind, *length))
            }
            _ => None,
        });
        skipped.collect()
    }

    fn skips_kind(&self, is: impl Fn(u16) -> bool) -> bool {
        self.skipped().iter().any(|(kind, _)| is(*kind))
    }

    fn skips_length(&self, of: usize) -> bool {
        self.skipped().iter().any(|(_, length)| *length == of)
    }

    /// Whether messages stand before one that is refused so.
    fn is_bad_behind_several(&self, refusal: Refusal) -> bool {
        self.is_bad(|bad| bad.refusal == refusal) && self.messages().count() >= SEVERAL
    }

    fn is_bad_far(&self, refusal: Refusal) -> bool {
        self.is_bad(|bad| bad.refusal == refusal && bad.place > FAR)
    }

    /// Whether nothing but these bytes is left where it is refused so.
    fn is_left(&self, bytes: &[u8], refusal: Refusal) -> bool {
        self.is_bad(|bad| bad.refusal == refusal && bad.rest == bytes)
    }
}

/// The edges of a stream as a whole.
fn edges() -> Vec<Edge<SeenStream>> {
    use Refusal::{FieldOutOfRange, LengthWrong, MessageCut};
    vec![
        ("an empty stream", |s| s.bytes.is_empty() && s.is_good()),
        ("every kind in one stream", |s| {
            let has = |kind: &Kind| s.messages().any(|message| message.kind() == *kind);
            s.is_good() && Kind::ALL.iter().all(has)
        }),
        ("a good stream beyond 65,536 bytes", |s| {
            s.is_good() && s.messages().count() > 1_000
        }),
        ("21 behind several", |s| s.is_bad_behind_several(MessageCut)),
        ("22 behind several", |s| {
            s.is_bad_behind_several(LengthWrong)
        }),
        ("23 behind several", |s| {
            s.is_bad_behind_several(FieldOutOfRange)
        }),
        ("21 far from the start", |s| s.is_bad_far(MessageCut)),
        ("22 far from the start", |s| s.is_bad_far(LengthWrong)),
        ("23 far from the start", |s| s.is_bad_far(FieldOutOfRange)),
        ("21: one byte alone", |s| s.is_left(&[0], MessageCut)),
        ("21: three bytes alone", |s| s.is_left(&[0; 3], MessageCut)),
        ("22: a length of 0 alone", |s| {
            s.is_left(&[0; 4], LengthWrong)
        }),
        ("22: a length of 1 alone", |s| {
            s.is_left(&[1, 0, 0, 0], LengthWrong)
        }),
        ("21: a length of 2 alone", |s| {
            s.is_left(&[2, 0, 0, 0], MessageCut)
        }),
        ("21: a length of 4,096 alone", |s| {
            s.is_left(&[0, 16, 0, 0], MessageCut)
        }),
        ("22: a length of 4,097 alone", |s| {
            s.is_left(&[1, 16, 0, 0], LengthWrong)
        }),
        ("22: the greatest length alone", |s| {
            s.is_left(&[0xff; 4], LengthWrong)
        }),
        ("unknown kind 0", |s| s.skips_kind(|kind| kind == 0)),
        ("unknown kind 9", |s| s.skips_kind(|kind| kind == 9)),
        ("unknown kind 255", |s| s.skips_kind(|kind| kind == 255)),
        ("unknown kind 65,535", |s| {
            s.skips_kind(|kind| kind == 65_535)
        }),
        ("an unknown kind known by its first byte", |s| {
            s.skips_kind(|kind| kind > 255 && Kind::from_number(kind & 255).is_some())
        }),
        ("an unknown kind known by its second byte", |s| {
            s.skips_kind(|kind| kind & 255 == 0 && Kind::from_number(kind >> 8).is_some())
        }),
        ("an unknown kind of 2 bytes", |s| s.skips_length(2)),
        ("an unknown kind of 3 bytes", |s| s.skips_length(3)),
        ("an unknown kind of 4,095 bytes", |s| s.skips_length(4_095)),
        ("an unknown kind of 4,096 bytes", |s| s.skips_length(4_096)),
        ("unknown kinds of every length", |s| {
            let skipped = s.skipped();
            s.is_good() && LENGTH.eq(skipped.iter().map(|(_, length)| *length))
        }),
        ("21: an unknown kind of 2 bytes cut", |s| {
            is_unknown_cut(s, 2)
        }),
        ("21: an unknown kind of 4,096 bytes cut", |s| {
            is_unknown_cut(s, 4_096)
        }),
    ]
}

/// Whether the stream ends one byte before the end of an unknown kind.
fn is_unknown_cut(seen: &SeenStream, length: usize) -> bool {
    seen.is_bad(|bad| {
        bad.refusal == Refusal::MessageCut
            && bad.kind().is_none()
            && bad.length() == Some(length)
            && bad.rest.len() == LENGTH_BYTES + length - 1
    })
}

/// Every edge, in the order in which they are told.
fn every_edge() -> Vec<String> {
    let mut every: Vec<String> = names(edges()).collect();
    every.extend(lengths::every_edge());
    every.extend(fields::every_edge());
    every.extend(bounds::every_edge());
    every
}

/// Counts the edges that the streams of an index meet, a line FILE a stream.
pub fn count_listen(index: impl BufRead) -> io::Result<Count> {
    let mut tally = Tally::new(every_edge().into_iter());
    each(index, |_, bytes| {
        let seen = SeenStream::new(bytes);
        tally.look(&edges(), &seen);
        bounds::look(&mut tally, &seen);
        for message in seen.messages() {
            fields::look_accepted(&mut tally, message);
        }
        if let Some(bad) = seen.bad() {
            lengths::look(&mut tally, &bad);
            fields::look_refused(&mut tally, &bad);
        }
        Ok(())
    })?;
    Ok(tally.count())
}
