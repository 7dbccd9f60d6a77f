//! The edges of a stream's `begin` and `end`.

use crate::listen::{is_one_whole, Said};
use crate::message::{Heard, Kind};
use crate::refusal::Refusal;
use crate::stream::{begin, sum, Bounds};
use crate::tally::{names, Edge, Tally};

use super::SeenStream;

/// The highest bit of a sum.
const SUM_HIGH: i64 = 1 << 31;
/// One more than the lower half of a count's bytes.
const COUNT_HALF: i64 = 1 << 32;

/// An `end` that is refused 25, and what it should have been: none where no
/// stream is open.
struct BadEnd<'s> {
    seen: &'s SeenStream,
    place: usize,
    count: i64,
    sum: i64,
    right: Option<(i64, u32)>,
}

impl BadEnd<'_> {
    fn has_right_count(&self) -> bool {
        self.right.map_or(false, |(count, _)| count == self.count)
    }

    fn has_right_sum(&self) -> bool {
        let own = self.right.map(|(_, sum)| i64::from(sum));
        own == Some(self.sum)
    }

    /// Whether the count alone is wrong, by a test of it and the right one.
    fn is_count(&self, is: impl Fn(i64, i64) -> bool) -> bool {
        let right = self.right.filter(|_| self.has_right_sum());
        right.map_or(false, |(count, _)| is(self.count, count))
    }

    /// Whether the sum alone is wrong, by a test of it and the right one.
    fn is_sum(&self, is: impl Fn(u32, u32) -> bool) -> bool {
        let right = self.right.filter(|_| self.has_right_count());
        right.map_or(false, |(_, sum)| is(self.sum as u32, sum))
    }

    /// The bytes of the input before it.
    fn before(&self) -> &[u8] {
        &self.seen.bytes[..self.place]
    }

    /// How many messages stand before it in the input.
    fn messages_before(&self) -> i64 {
        self.seen.turns.len() as i64 - 1
    }

    fn is_of_all(&self) -> bool {
        self.count == self.messages_before() && self.sum == i64::from(sum(self.before()))
    }

    fn is_behind(&self, kind: Kind) -> bool {
        let before = self.seen.messages().last();
        before.map_or(false, |message| message.kind() == kind)
    }
}

fn bad_end(seen: &SeenStream) -> Option<BadEnd<'_>> {
    let bad = seen.bad()?;
    let given = bad.message().filter(|_| bad.refusal == Refusal::NotWhole)?;
    let mut bounds = Bounds::default();
    for turn in &seen.turns {
        if let Said::Heard(heard) = &turn.said {
            let kind = match heard {
                Heard::Message(message) => Some(message.kind()),
                Heard::Unknown { .. } => None,
            };
            bounds = bounds.after(turn.place, kind);
        }
    }
    let right = bounds.open().map(|open| {
        let bytes = &seen.bytes[open.place..bad.place];
        (open.messages, sum(bytes))
    });
    Some(BadEnd {
        seen,
        place: bad.place,
        count: given.fields()[0],
        sum: given.fields()[1],
        right,
    })
}

impl SeenStream {
    fn ends(&self) -> usize {
        self.messages()
            .filter(|message| message.kind() == Kind::End)
            .count()
    }

    fn is_whole(&self) -> bool {
        is_one_whole(&self.turns)
    }

    /// Whether the last turn says that a stream of so many messages is unended.
    fn ends_unended(&self, is: impl Fn(i64) -> bool) -> bool {
        let last = self.turns.last().map(|turn| &turn.said);
        matches!(last, Some(Said::Unended(messages)) if is(*messages))
    }

    fn unended(&self) -> usize {
        let is_unended = |said: &Said| matches!(said, Said::Unended(_));
        self.turns
            .iter()
            .filter(|turn| is_unended(&turn.said))
            .count()
    }

    /// Whether an end with such a sum is accepted.
    fn has_sum(&self, is: impl Fn(i64) -> bool) -> bool {
        self.messages()
            .filter(|message| message.kind() == Kind::End)
            .any(|message| is(message.fields()[1]))
    }

    fn begins_with(&self, kind: Kind) -> bool {
        let first = self.turns.first().and_then(|turn| turn.message());
        first.map_or(false, |message| message.kind() == kind)
    }

    fn ends_with(&self, kind: Kind) -> bool {
        let last = self.turns.last().and_then(|turn| turn.message());
        last.map_or(false, |message| message.kind() == kind)
    }
}

fn edges() -> Vec<Edge<SeenStream>> {
    vec![
        ("one whole stream", SeenStream::is_whole),
        ("one whole stream of begin and end alone", |s| {
            s.is_whole() && s.turns.len() == 2
        }),
        ("one whole stream beyond 65,536 bytes", |s| {
            s.is_whole() && s.turns.len() > 1_000
        }),
        ("an unknown kind in a whole stream", |s| {
            s.is_whole() && s.messages().count() < s.turns.len()
        }),
        ("a sum below 2^31", |s| s.has_sum(|sum| sum < SUM_HIGH)),
        ("a sum of 2^31 or more", |s| {
            s.has_sum(|sum| sum >= SUM_HIGH)
        }),
        ("two whole streams", |s| {
            s.ends() == 2
                && s.ends_with(Kind::End)
                && s.begins_with(Kind::Begin)
                && s.unended() == 0
        }),
        ("messages behind a whole stream", |s| {
            s.ends() == 1 && s.is_good() && !s.ends_with(Kind::End) && s.unended() == 0
        }),
        ("messages before a begin", |s| {
            s.ends() == 1 && s.ends_with(Kind::End) && !s.begins_with(Kind::Begin)
        }),
        ("a begin alone is unended", |s| {
            s.ends_unended(|messages| messages == 1)
        }),
        ("messages behind a begin are unended", |s| {
            s.ends_unended(|messages| messages > 3)
        }),
        ("unended behind a whole stream", |s| {
            s.ends() == 1 && s.ends_unended(|_| true)
        }),
        ("unended where another stream begins", |s| {
            s.unended() == 1 && s.ends_with(Kind::End)
        }),
        ("a begin behind a begin", |s| {
            let is_begin = |place: usize| {
                s.turns.get(place).map_or(false, |turn| {
                    turn.message().map_or(false, |message| *message == begin())
                })
            };
            is_begin(0) && is_begin(2) && s.unended() == 1
        }),
        ("a refusal within a stream that began", |s| {
            s.begins_with(Kind::Begin)
                && s.ends() == 0
                && s.is_bad(|bad| bad.refusal != Refusal::NotWhole)
        }),
        ("23, and another's sum", |s| {
            s.is_bad(|bad| bad.refusal == Refusal::FieldOutOfRange && bad.kind() == Some(Kind::End))
        }),
    ]
}

fn end_edges<'s>() -> Vec<Edge<BadEnd<'s>>> {
    vec![
        ("25: no begin, and the right count and sum", |e| {
            e.right.is_none() && e.is_of_all() && e.count > 0
        }),
        ("25: an end alone", |e| e.place == 0 && e.is_of_all()),
        ("25: an end behind an end", |e| {
            e.right.is_none() && e.is_behind(Kind::End)
        }),
        ("25: the count and the sum of the whole input", |e| {
            e.is_of_all() && e.seen.ends() == 1 && e.right.is_some()
        }),
        ("25: a count of one less", |e| {
            e.is_count(|given, right| given == right - 1)
        }),
        ("25: a count of one more", |e| {
            e.is_count(|given, right| given == right + 1)
        }),
        ("25: a count that is right in its lower half", |e| {
            e.is_count(|given, right| given > right && given % COUNT_HALF == right)
        }),
        ("25: a count of 0", |e| e.is_count(|given, _| given == 0)),
        ("25: the greatest count", |e| {
            e.is_count(|given, _| given == i64::MAX)
        }),
        ("25: a sum with one bit flipped", |e| {
            e.is_sum(|given, right| (given ^ right).count_ones() == 1)
        }),
        ("25: a sum with its bytes exchanged", |e| {
            e.is_sum(|given, right| given != right && given == right.swap_bytes())
        }),
        ("25: the sum of the bytes behind begin", |e| {
            let behind = e.before().get(begin().bytes().len()..).unwrap_or_default();
            e.is_sum(|given, right| given != right && given == sum(behind))
        }),
    ]
}

/// Every edge once, in the order in which they are told.
pub fn every_edge() -> Vec<String> {
    names(edges()).chain(names(end_edges())).collect()
}

/// Meets the edges of a stream.
pub fn look(tally: &mut Tally, seen: &SeenStream) {
    tally.look(&edges(), seen);
    if let Some(bad) = bad_end(seen) {
        tally.look(&end_edges(), &bad);
    }
}
