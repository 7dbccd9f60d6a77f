//! Messages with another length, unknown ones, and streams with any damage.

use crate::message::{Kind, Message, LENGTH, LENGTH_BYTES};
use crate::random::Random;

use super::messages::any_message;

/// A length that is wrong for its kind, and how many bytes follow it.
#[derive(Clone, Copy)]
pub enum WrongLength {
    /// Less than the kind's own, with the bytes that it counts.
    OneLess,
    /// Less than the kind's own, with all bytes of the message.
    OneLessAllThere,
    /// More than the kind's own, with the bytes that it counts.
    OneMore,
    /// More than the kind's own, with no byte more: cut short.
    OneMoreCut,
    /// This length, with the bytes of the message.
    Said(u32),
    /// This length, with all the bytes that it counts.
    Filled(u32),
    /// The kind's own length, the byte of most weight first.
    Swapped,
    /// Right if its lower two bytes alone are read.
    HighBytes,
    /// That of another kind, with the bytes that it counts.
    OfAnother,
}

pub const WRONG_LENGTHS: [WrongLength; 15] = [
    WrongLength::OneLess,
    WrongLength::OneLessAllThere,
    WrongLength::OneMore,
    WrongLength::OneMoreCut,
    WrongLength::Said(0),
    WrongLength::Said(1),
    WrongLength::Said(2),
    WrongLength::Said(4_096),
    WrongLength::Said(4_097),
    WrongLength::Filled(2),
    WrongLength::Filled(4_096),
    WrongLength::Filled(4_097),
    WrongLength::Swapped,
    WrongLength::HighBytes,
    WrongLength::OfAnother,
];

impl WrongLength {
    /// The bytes of a message with this length in place of its own.
    pub fn damaged(self, random: &mut Random, message: &Message) -> Vec<u8> {
        let own = message.kind().length() as u32;
        let mut lengths = Kind::ALL.iter().map(|kind| kind.length() as u32);
        let other = lengths.find(|length| *length != own).unwrap_or_default();
        let (length, counted) = match self {
            WrongLength::OneLess => (own - 1, own - 1),
            WrongLength::OneLessAllThere => (own - 1, own),
            WrongLength::OneMore => (own + 1, own + 1),
            WrongLength::OneMoreCut => (own + 1, own),
            WrongLength::Said(length) => (length, own),
            WrongLength::Filled(length) => (length, length),
            WrongLength::Swapped => (own.swap_bytes(), own),
            WrongLength::HighBytes => (own + (random.pick(&[1, 0x100, 0x8000]) << 16), own),
            WrongLength::OfAnother => (other, other),
        };
        let mut bytes = length.to_le_bytes().to_vec();
        bytes.extend(&message.bytes()[LENGTH_BYTES..]);
        filled(random, bytes, LENGTH_BYTES + counted as usize)
    }
}

/// So many bytes: the first ones of those given, and then any.
fn filled(random: &mut Random, mut bytes: Vec<u8>, count: usize) -> Vec<u8> {
    bytes.truncate(count);
    while bytes.len() < count {
        bytes.push(random.below(256) as u8);
    }
    bytes
}

/// A message of a kind with a length, and any bytes for its fields, often those
/// of a good message.
pub fn unknown(random: &mut Random, kind: u16, length: usize) -> Vec<u8> {
    let mut bytes = (length as u32).to_le_bytes().to_vec();
    bytes.extend(kind.to_le_bytes());
    if random.chance(50) {
        bytes.extend(any_message(random).bytes());
    }
    filled(random, bytes, LENGTH_BYTES + length)
}

/// A kind that no reader knows.
pub fn any_unknown_kind(random: &mut Random) -> u16 {
    random.pick(&[0, 9, 10, 255, 256, 257, 0x0404, 1_024, 32_768, 65_535])
}

/// An unknown message of any length.
pub fn any_unknown(random: &mut Random) -> Vec<u8> {
    let kind = any_unknown_kind(random);
    let most = random.pick(&[2, 10, 100, *LENGTH.end()]);
    let length = random.between(2, most as i64) as usize;
    unknown(random, kind, length)
}

/// A stream with one byte or two changed, lost or added, or cut anywhere.
pub fn damaged(random: &mut Random, mut stream: Vec<u8>) -> Vec<u8> {
    if stream.is_empty() {
        return stream;
    }
    let place = random.below(stream.len());
    match random.below(8) {
        0 => stream.truncate(place),
        1 => {
            stream.remove(place);
        }
        2 => stream.insert(place, random.pick(&[0, 1, 2, 0x7f, 0xff])),
        3 => stream[place] = random.pick(&[0, 1, 2, 0x7f, 0x80, 0xff]),
        4 => {
            let other = random.below(stream.len());
            stream.swap(place, other);
        }
        5 => {
            let end = stream.len().min(place + 8);
            stream[place..end].reverse();
        }
        _ => stream[place] ^= 1 << random.below(8),
    }
    stream
}
