//! What a stream ends with, behind good messages: a message with one fault or
//! with two, or an unknown one.

use crate::message::{Field, Kind, Message};
use crate::random::Random;

use super::damage::{any_unknown_kind, unknown, WrongLength};
use super::messages::{any_message, broken, message, message_with, Broken};

/// How a field is out of its range.
#[derive(Clone, Copy)]
pub enum Past {
    OneBelow,
    OneAbove,
    /// In range if the lower half of its bytes alone is read.
    HighBytes,
}

/// Every way once.
pub const PASTS: [Past; 3] = [Past::OneBelow, Past::OneAbove, Past::HighBytes];

/// What a stream ends with.
#[derive(Clone, Copy)]
pub enum Last {
    /// A field, by its place, out of its range, and good messages after it.
    Past(Kind, usize, Past),
    Broken(Broken),
    /// The first bytes of a message alone.
    Cut(Kind, usize),
    WrongLength(Kind, WrongLength),
    CutAndPast(Kind),
    CutAndWrongLength(Kind),
    WrongLengthAndPast(Kind),
    /// An unknown kind of a length, and a good message after it.
    Unknown(u16, usize),
    /// An unknown kind of a length without its last byte.
    UnknownCut(usize),
}

impl Past {
    /// Whether the bytes of a field can be past its range so.
    pub fn is_of(self, field: &Field) -> bool {
        let (least, most) = (*field.range.start(), *field.range.end());
        match self {
            Past::OneBelow => field.has(i128::from(least) - 1),
            Past::OneAbove => field.has(i128::from(most) + 1),
            Past::HighBytes => field.bytes > 1 && field.is_signed,
        }
    }

    fn value(self, random: &mut Random, field: &Field) -> i64 {
        match self {
            Past::OneBelow => field.range.start() - 1,
            Past::OneAbove => field.range.end() + 1,
            Past::HighBytes => {
                let half = 4 * field.bytes as u32;
                let top = 1 << (half - 1);
                let low_most = (top - 1).min(*field.range.end());
                let low = random.between((*field.range.start()).max(0), low_most);
                // The greatest number of the upper half, a great one, and the least.
                let highs = [top - 1, top / 2, -top].map(|high| (high << half) + low);
                let past = highs
                    .into_iter()
                    .filter(|value| !field.range.contains(value));
                random.pick(&past.collect::<Vec<i64>>())
            }
        }
    }

    /// A message of a kind that has its field at a place so, and is good but for
    /// that.
    fn message(self, random: &mut Random, kind: Kind, place: usize) -> Message {
        let given = self.value(random, &kind.fields()[place]);
        message_with(random, kind, place, given)
    }
}

impl Last {
    pub fn bytes(self, random: &mut Random) -> Vec<u8> {
        match self {
            Last::Past(kind, place, past) => {
                let bad = past.message(random, kind, place);
                [bad.bytes(), any_message(random).bytes()].concat()
            }
            Last::Broken(what) => broken(random, what).bytes(),
            Last::Cut(kind, count) => message(random, kind).bytes()[..count].to_vec(),
            Last::WrongLength(kind, length) => {
                let good = message(random, kind);
                length.damaged(random, &good)
            }
            Last::CutAndPast(kind) => {
                let bad = Past::OneBelow.message(random, kind, 0);
                without_last(bad.bytes())
            }
            Last::CutAndWrongLength(kind) => {
                let good = message(random, kind);
                without_last(WrongLength::OneLess.damaged(random, &good))
            }
            Last::WrongLengthAndPast(kind) => {
                let bad = Past::OneBelow.message(random, kind, 0);
                WrongLength::OneMore.damaged(random, &bad)
            }
            Last::Unknown(kind, length) => {
                let skipped = unknown(random, kind, length);
                [skipped, any_message(random).bytes()].concat()
            }
            Last::UnknownCut(length) => {
                let kind = any_unknown_kind(random);
                without_last(unknown(random, kind, length))
            }
        }
    }
}

fn without_last(mut bytes: Vec<u8>) -> Vec<u8> {
    bytes.pop();
    bytes
}
