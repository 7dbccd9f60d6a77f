//! The edges of a message of a known kind that is cut short or has a length that
//! is wrong for it.

use crate::message::{Kind, LENGTH_BYTES};
use crate::refusal::Refusal::{self, LengthWrong, MessageCut};
use crate::tally::{names, Edge, Tally};

use super::{Bad, FIELDS_PLACE};

/// A refused message of a known kind.
struct BadKind<'s> {
    kind: Kind,
    bad: &'s Bad<'s>,
    length: usize,
}

impl BadKind<'_> {
    fn is(&self, refusal: Refusal) -> bool {
        self.bad.refusal == refusal
    }

    /// The length that its kind has.
    fn own(&self) -> usize {
        self.kind.length()
    }

    /// Whether it is refused so for a length, with so many bytes behind it.
    fn says(&self, refusal: Refusal, length: usize, left: usize) -> bool {
        self.is(refusal) && self.length == length && self.left() == left
    }

    /// The bytes behind the length.
    fn left(&self) -> usize {
        self.bad.rest.len() - LENGTH_BYTES
    }

    fn has_every_byte(&self) -> bool {
        self.left() >= self.length
    }

    /// Its first field, an id for most kinds, is one below its range, by the bytes
    /// of it that are there.
    fn has_first_past(&self) -> bool {
        let field = &self.kind.fields()[0];
        let past = (field.range.start() - 1).to_le_bytes();
        let fields = self.bad.rest.get(FIELDS_PLACE..).unwrap_or_default();
        let mut bytes = fields.iter().zip(&past[..field.bytes]);
        !fields.is_empty() && bytes.all(|(given, past)| given == past)
    }
}

fn edges<'s>() -> Vec<Edge<BadKind<'s>>> {
    vec![
        ("22: a length of one less", |b| {
            b.says(LengthWrong, b.own() - 1, b.own() - 1)
        }),
        ("22: a length of one less, no byte less", |b| {
            b.says(LengthWrong, b.own() - 1, b.own())
        }),
        ("22: a length of one more", |b| {
            b.says(LengthWrong, b.own() + 1, b.own() + 1)
        }),
        ("21: a length of one more, no byte more", |b| {
            b.says(MessageCut, b.own() + 1, b.own())
        }),
        ("22: a length of 0", |b| b.says(LengthWrong, 0, b.own())),
        ("22: a length of 1", |b| b.says(LengthWrong, 1, b.own())),
        ("22: a length of 2", |b| b.says(LengthWrong, 2, b.own())),
        ("22: a length of 2, no byte more", |b| {
            b.says(LengthWrong, 2, 2)
        }),
        ("21: a length of 4,096", |b| {
            b.says(MessageCut, 4_096, b.own())
        }),
        ("22: a length of 4,096, every byte there", |b| {
            b.says(LengthWrong, 4_096, 4_096)
        }),
        ("22: a length of 4,097", |b| {
            b.says(LengthWrong, 4_097, b.own())
        }),
        ("22: a length of 4,097, every byte there", |b| {
            b.says(LengthWrong, 4_097, 4_097)
        }),
        ("22: its length with the bytes exchanged", |b| {
            let own = b.own() as u32;
            b.is(LengthWrong) && b.length == own.swap_bytes() as usize
        }),
        ("22: its length in the lower two bytes", |b| {
            b.is(LengthWrong) && b.length > 0xffff && b.length & 0xffff == b.own()
        }),
        ("22: another kind's length", |b| {
            let is_of = |kind: &Kind| kind.length() == b.length && b.length != b.own();
            b.is(LengthWrong) && b.has_every_byte() && Kind::ALL.iter().any(is_of)
        }),
        ("21, and a field out of range", |b| {
            b.says(MessageCut, b.own(), b.own() - 1) && b.has_first_past()
        }),
        ("21, and a wrong length", |b| {
            b.says(MessageCut, b.own() - 1, b.own() - 2)
        }),
        ("22, and a field out of range", |b| {
            b.is(LengthWrong) && b.has_every_byte() && b.has_first_past()
        }),
    ]
}

fn named(kind: Kind, edge: &str) -> String {
    format!("{} {edge}", kind.word())
}

/// A message of a kind cut to so many bytes. Its first bytes do not tell what
/// kind it is, and the first of all not even its length.
fn cut(kind: Kind, bytes: usize) -> String {
    let what = if bytes < LENGTH_BYTES {
        "a message".to_string()
    } else if bytes < FIELDS_PLACE {
        format!("a length of {}", kind.length())
    } else {
        kind.word().to_string()
    };
    format!("{what} cut at byte {bytes}")
}

/// Every edge once, in the order in which they are told.
pub fn every_edge() -> Vec<String> {
    let mut every: Vec<String> = Vec::new();
    for kind in Kind::ALL {
        every.extend(names(edges()).map(|edge| named(kind, &edge)));
        for bytes in 1..LENGTH_BYTES + kind.length() {
            let cut = cut(kind, bytes);
            if !every.contains(&cut) {
                every.push(cut);
            }
        }
    }
    every
}

/// The kind of which a message is cut, if it is one: any kind where its bytes do
/// not tell.
fn cut_kind(bad: &Bad) -> Option<Kind> {
    let kind = match bad.length() {
        None => Some(Kind::Statics),
        Some(_) if bad.rest.len() >= FIELDS_PLACE => bad.kind(),
        Some(length) => Kind::ALL.into_iter().find(|kind| kind.length() == length),
    };
    let is_own = |kind: &Kind| bad.length().map_or(true, |length| length == kind.length());
    kind.filter(is_own)
}

/// Meets the edges of a refused message.
pub fn look(tally: &mut Tally, bad: &Bad) {
    if bad.refusal == MessageCut {
        if let Some(kind) = cut_kind(bad) {
            tally.meet(&cut(kind, bad.rest.len()));
        }
    }
    if let (Some(kind), Some(length)) = (bad.kind(), bad.length()) {
        let seen = BadKind { kind, bad, length };
        for (edge, is_met) in edges() {
            if is_met(&seen) {
                tally.meet(&named(kind, edge));
            }
        }
    }
}
