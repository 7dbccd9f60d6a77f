//! A message to members (W-212, docs/BROADCAST.md): a length, a kind and fields
//! at fixed widths, little-endian. One writer and one reader go over the list of
//! a kind's fields, whichever the kind is.

mod kinds;

use std::ops::RangeInclusive;

use crate::refusal::Refusal;
use crate::statics::Statics;

pub use kinds::{Field, Kind, KIND_BYTES, VERSION};

/// Bytes of the length, which it does not count.
pub const LENGTH_BYTES: usize = 4;
/// What a length may be.
pub const LENGTH: RangeInclusive<usize> = 2..=4_096;

/// A message of a known kind: a number for each of its fields.
#[derive(Clone, Debug, PartialEq, Eq)]
pub struct Message {
    kind: Kind,
    fields: Vec<i64>,
}

/// What a reader meets and goes on after.
#[derive(Clone, Debug, PartialEq, Eq)]
pub enum Heard {
    Message(Message),
    /// A message that is skipped by its length.
    Unknown {
        kind: u16,
        length: usize,
    },
}

impl Message {
    /// The message of a kind with its fields, of which there must be as many as
    /// the kind has.
    pub fn new(kind: Kind, fields: Vec<i64>) -> Message {
        assert_eq!(fields.len(), kind.fields().len(), "fields of {kind:?}");
        Message { kind, fields }
    }

    pub fn kind(&self) -> Kind {
        self.kind
    }

    pub fn fields(&self) -> &[i64] {
        &self.fields
    }

    /// Whether every field is in its range. Kind 1 is judged as an admission
    /// judges id and statics, orders and multiples too.
    pub fn is_in_range(&self) -> bool {
        let mut fields = self.kind.fields().iter().zip(&self.fields);
        fields.all(|(field, value)| field.range.contains(value))
            && (self.kind != Kind::Statics || self.has_sound_statics())
    }

    fn has_sound_statics(&self) -> bool {
        let statics = self.fields[1..].try_into().ok();
        statics.map_or(false, |numbers| Statics::from_numbers(numbers).is_some())
    }

    /// The bytes of the message, whether or not a reader takes them: a number too
    /// great for its field loses its high bytes.
    pub fn bytes(&self) -> Vec<u8> {
        let mut bytes = Vec::new();
        bytes.extend(number_of(self.kind.length()).to_le_bytes());
        bytes.extend(self.kind.number().to_le_bytes());
        for (field, value) in self.kind.fields().iter().zip(&self.fields) {
            bytes.extend(&value.to_le_bytes()[..field.bytes]);
        }
        bytes
    }

    /// Writes the message to the start of a buffer, and gives its bytes: refused
    /// 23, 24, and then the buffer stays as it is.
    pub fn write(&self, buffer: &mut [u8]) -> Result<usize, Refusal> {
        if !self.is_in_range() {
            return Err(Refusal::FieldOutOfRange);
        }
        let bytes = self.bytes();
        let room = buffer.get_mut(..bytes.len()).ok_or(Refusal::NoRoom)?;
        room.copy_from_slice(&bytes);
        Ok(bytes.len())
    }
}

/// Reads the message that starts at a place of a buffer, and gives the place
/// after it: refused 21, 22 or 23.
pub fn read(buffer: &[u8], place: usize) -> Result<(Heard, usize), Refusal> {
    let rest = buffer.get(place..).unwrap_or_default();
    let length = length_at(rest).ok_or(Refusal::MessageCut)?;
    if !LENGTH.contains(&length) {
        return Err(Refusal::LengthWrong);
    }
    let counted = rest[LENGTH_BYTES..]
        .get(..length)
        .ok_or(Refusal::MessageCut)?;
    let (kind, fields) = counted.split_at(KIND_BYTES);
    let number = u16::from_le_bytes([kind[0], kind[1]]);
    let after = place + LENGTH_BYTES + length;
    match Kind::from_number(number) {
        None => {
            let kind = number;
            Ok((Heard::Unknown { kind, length }, after))
        }
        Some(kind) if length != kind.length() => Err(Refusal::LengthWrong),
        Some(kind) => {
            let message = Message::new(kind, numbers(kind, fields));
            if !message.is_in_range() {
                return Err(Refusal::FieldOutOfRange);
            }
            Ok((Heard::Message(message), after))
        }
    }
}

/// The length that a message begins with; none where its bytes are not all there.
pub fn length_at(bytes: &[u8]) -> Option<usize> {
    let length = bytes.get(..LENGTH_BYTES)?.try_into().ok()?;
    usize::try_from(u32::from_le_bytes(length)).ok()
}

/// The numbers of a kind's fields, which stand one behind the other.
pub fn numbers(kind: Kind, bytes: &[u8]) -> Vec<i64> {
    let mut rest = bytes;
    let mut number = |field: &Field| {
        let (own, after) = rest.split_at(field.bytes);
        rest = after;
        field.number(own)
    };
    kind.fields().iter().map(&mut number).collect()
}

/// A length as the number of its four bytes.
fn number_of(length: usize) -> u32 {
    u32::try_from(length).expect("a length has four bytes")
}
