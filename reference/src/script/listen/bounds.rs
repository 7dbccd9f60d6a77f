//! Streams that begin and end: whole ones, several in one input, unended ones,
//! and ends that are not theirs.

use crate::message::{Kind, Message};
use crate::random::Random;
use crate::stream::{begin, end, sum, whole};

use super::damage::{any_unknown, damaged};
use super::messages::any_message;

/// How an `end` is not that of its stream.
#[derive(Clone, Copy)]
pub enum OtherEnd {
    /// The count is off by so much.
    Count(i64),
    /// The count is this.
    Counts(i64),
    /// The sum has one bit flipped.
    SumBit,
    /// The sum has the byte of most weight first.
    SumSwapped,
    /// The sum of the bytes behind `begin`.
    SumWithoutBegin,
    /// The count and the sum are another stream's.
    OfAnother,
}

/// How streams stand in an input.
#[derive(Clone, Copy)]
pub enum Bound {
    /// A whole stream of so many messages.
    Whole(usize),
    /// A whole stream whose sum has its highest bit set, or has not.
    Sum(bool),
    TwoWhole,
    WholeThenOld,
    OldThenWhole,
    /// `begin` and so many messages.
    Unended(usize),
    WholeThenUnended,
    UnendedThenWhole,
    BeginTwice,
    /// Messages, and an end with their count and their sum, but no `begin`.
    NoBegin,
    EndAlone,
    EndTwice,
    /// A second stream, whose end has the count and the sum of the whole input.
    EndOfAll,
    OtherEnd(OtherEnd),
    /// The count is below zero, and the sum another's.
    CountBelowZero,
    /// A whole stream with any damage.
    Damaged,
}

/// Every way once.
pub const BOUNDS: [Bound; 29] = [
    Bound::Whole(0),
    Bound::Whole(1),
    Bound::Whole(20),
    Bound::Whole(1_500),
    Bound::Sum(false),
    Bound::Sum(true),
    Bound::TwoWhole,
    Bound::WholeThenOld,
    Bound::OldThenWhole,
    Bound::Unended(0),
    Bound::Unended(9),
    Bound::WholeThenUnended,
    Bound::UnendedThenWhole,
    Bound::BeginTwice,
    Bound::NoBegin,
    Bound::EndAlone,
    Bound::EndTwice,
    Bound::EndOfAll,
    Bound::OtherEnd(OtherEnd::Count(-1)),
    Bound::OtherEnd(OtherEnd::Count(1)),
    Bound::OtherEnd(OtherEnd::Count(1 << 32)),
    Bound::OtherEnd(OtherEnd::Counts(0)),
    Bound::OtherEnd(OtherEnd::Counts(i64::MAX)),
    Bound::OtherEnd(OtherEnd::SumBit),
    Bound::OtherEnd(OtherEnd::SumSwapped),
    Bound::OtherEnd(OtherEnd::SumWithoutBegin),
    Bound::OtherEnd(OtherEnd::OfAnother),
    Bound::CountBelowZero,
    Bound::Damaged,
];

/// So many messages that a reader goes on after: good ones, and some unknown.
pub fn messages(random: &mut Random, count: usize) -> Vec<Vec<u8>> {
    let mut one = || {
        if random.chance(10) {
            any_unknown(random)
        } else {
            any_message(random).bytes()
        }
    };
    (0..count).map(|_| one()).collect()
}

fn some(random: &mut Random) -> Vec<Vec<u8>> {
    let count = 1 + random.below(8);
    messages(random, count)
}

fn any_whole(random: &mut Random) -> Vec<u8> {
    whole(&some(random))
}

fn any_unended(random: &mut Random, count: usize) -> Vec<u8> {
    [begin().bytes(), messages(random, count).concat()].concat()
}

/// An `end` with a count and a sum.
fn end_with(count: i64, sum: u32) -> Vec<u8> {
    Message::new(Kind::End, vec![count, i64::from(sum)]).bytes()
}

/// A whole stream whose sum has its highest bit as asked.
fn with_sum(random: &mut Random, is_high: bool) -> Vec<u8> {
    loop {
        let stream = any_whole(random);
        let last = stream.last().copied().unwrap_or_default();
        if (last >= 0x80) == is_high {
            return stream;
        }
    }
}

impl OtherEnd {
    fn stream(self, random: &mut Random) -> Vec<u8> {
        let inner = some(random);
        let count = 1 + inner.len() as i64;
        let stream = [begin().bytes(), inner.concat()].concat();
        let own = sum(&stream);
        let (count, sum) = match self {
            OtherEnd::Count(off) => (count + off, own),
            OtherEnd::Counts(count) => (count, own),
            OtherEnd::SumBit => (count, own ^ (1 << random.below(32))),
            OtherEnd::SumSwapped => (count, own.swap_bytes()),
            OtherEnd::SumWithoutBegin => (count, sum(&inner.concat())),
            OtherEnd::OfAnother => {
                let other = some(random);
                let bytes = [begin().bytes(), other.concat()].concat();
                (1 + other.len() as i64, sum(&bytes))
            }
        };
        [stream, end_with(count, sum)].concat()
    }
}

impl Bound {
    pub fn stream(self, random: &mut Random) -> Vec<u8> {
        match self {
            Bound::Whole(count) => whole(&messages(random, count)),
            Bound::Sum(is_high) => with_sum(random, is_high),
            Bound::TwoWhole => [any_whole(random), any_whole(random)].concat(),
            Bound::WholeThenOld => [any_whole(random), some(random).concat()].concat(),
            Bound::OldThenWhole => [some(random).concat(), any_whole(random)].concat(),
            Bound::Unended(count) => any_unended(random, count),
            Bound::WholeThenUnended => [any_whole(random), any_unended(random, 3)].concat(),
            Bound::UnendedThenWhole => [any_unended(random, 3), any_whole(random)].concat(),
            Bound::BeginTwice => [begin().bytes(), any_whole(random)].concat(),
            Bound::NoBegin => {
                let inner = some(random);
                let count = inner.len() as i64;
                let bytes = inner.concat();
                let last = end(count, &bytes).bytes();
                [bytes, last].concat()
            }
            Bound::EndAlone => end(0, &[]).bytes(),
            Bound::EndTwice => {
                let stream = any_whole(random);
                let again = stream[stream.len() - end(0, &[]).bytes().len()..].to_vec();
                [stream, again].concat()
            }
            Bound::EndOfAll => {
                let first = some(random);
                let second = some(random);
                let count = 3 + (first.len() + second.len()) as i64;
                let bytes = [whole(&first), begin().bytes(), second.concat()].concat();
                let last = end(count, &bytes).bytes();
                [bytes, last].concat()
            }
            Bound::OtherEnd(other) => other.stream(random),
            Bound::CountBelowZero => {
                let stream = any_unended(random, 2);
                [stream, end_with(-1, 0)].concat()
            }
            Bound::Damaged => {
                let stream = any_whole(random);
                damaged(random, stream)
            }
        }
    }
}
