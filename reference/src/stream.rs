//! A whole stream of messages (docs/BROADCAST.md): `begin`, messages, and an `end`
//! with how many messages stand before it and the CRC-32 of their bytes.

use crate::message::{Kind, Message, VERSION};

/// The polynomial of CRC-32 (IEEE 802.3) without its highest power, the lowest
/// power in the highest bit.
const POLYNOMIAL: u32 = 0xedb8_8320;

/// The CRC-32 of bytes: the rest of a division by the polynomial, a bit at a time.
pub fn sum(bytes: &[u8]) -> u32 {
    let divided = |rest: u32, _| {
        let is_taken = rest & 1 == 1;
        (rest >> 1) ^ if is_taken { POLYNOMIAL } else { 0 }
    };
    let carried = |rest: u32, byte: &u8| (0..8).fold(rest ^ u32::from(*byte), divided);
    !bytes.iter().fold(!0, carried)
}

/// What a stream begins with.
pub fn begin() -> Message {
    Message::new(Kind::Begin, vec![VERSION])
}

/// What a stream of so many messages and these bytes ends with.
pub fn end(messages: i64, bytes: &[u8]) -> Message {
    Message::new(Kind::End, vec![messages, i64::from(sum(bytes))])
}

/// A stream that began and has not ended.
#[derive(Clone, Copy, Debug, PartialEq, Eq)]
pub struct Open {
    /// The place of its `begin`.
    pub place: usize,
    /// Its messages so far, `begin` among them.
    pub messages: i64,
}

/// The stream that is open before and after each message of an input.
#[derive(Clone, Copy, Debug, Default)]
pub struct Bounds {
    open: Option<Open>,
}

impl Bounds {
    /// The stream that began and has no end yet.
    pub fn open(self) -> Option<Open> {
        self.open
    }

    /// Whether an `end` at a place of the input is that of the stream before it.
    pub fn is_end(self, input: &[u8], place: usize, given: &Message) -> bool {
        self.open.map_or(false, |open| {
            *given == end(open.messages, &input[open.place..place])
        })
    }

    /// What is open behind a message at a place; an unknown one has no kind.
    pub fn after(self, place: usize, kind: Option<Kind>) -> Bounds {
        let open = match kind {
            Some(Kind::Begin) => Some(Open { place, messages: 1 }),
            Some(Kind::End) => None,
            _ => self.open.map(|open| Open {
                messages: open.messages + 1,
                ..open
            }),
        };
        Bounds { open }
    }
}

/// Messages between their `begin` and their `end`.
pub fn whole<B: AsRef<[u8]>>(messages: &[B]) -> Vec<u8> {
    let mut stream = begin().bytes();
    for message in messages {
        stream.extend(message.as_ref());
    }
    let last = end(1 + messages.len() as i64, &stream);
    stream.extend(last.bytes());
    stream
}

#[cfg(test)]
mod tests {
    use super::*;

    #[test]
    fn sums_are_those_of_ieee() {
        assert_eq!(sum(b""), 0);
        assert_eq!(sum(b"123456789"), 0xcbf4_3926);
        assert_eq!(sum(&[0; 32]), 0x190a_55ad);
        assert_eq!(sum(&[0xff; 32]), 0xff6c_ab0b);
        assert_eq!(sum(b"a"), 0xe8b7_be43);
    }

    #[test]
    fn every_flipped_bit_changes_the_sum() {
        let bytes: Vec<u8> = (0..200_u8).map(|byte| byte.wrapping_mul(37)).collect();
        for bit in 0..8 * bytes.len() {
            let mut flipped = bytes.clone();
            flipped[bit / 8] ^= 1 << (bit % 8);
            assert_ne!(sum(&flipped), sum(&bytes));
        }
    }
}
