//! Whole streams of messages, each damaged in twenty ways.

use std::io::{self, BufRead, Write};
use std::path::Path;

use crate::damage::{has_day, Damage, DAY_PLACE};
use crate::listen::{is_one_whole, turns, WHOLE};
use crate::message::{self, Heard, Kind, Message, KIND_BYTES, LENGTH_BYTES};
use crate::random::Random;
use crate::stream::{begin, end};
use crate::units::DAY_NUMBER;

use super::listen::{any_unknown, message_with, of_securities};

/// Where a message's fields begin, and there its id.
const ID_PLACE: usize = LENGTH_BYTES + KIND_BYTES;
/// Where kind 2 has its price, and kind 1 what is yes or no.
const PRICE_PLACE: usize = 14;
const FLAG_PLACES: [usize; 4] = [90, 91, 96, 101];
/// A kind that nobody knows.
const UNKNOWN: u16 = 9;
/// The most bytes of a piece that is zeros.
const PIECE: usize = 64;

/// A whole stream as its messages, `begin` and `end` among them.
#[derive(Clone)]
struct Whole {
    messages: Vec<Vec<u8>>,
}

impl Whole {
    /// Messages between a `begin` and an `end`.
    fn around(inner: Vec<Vec<u8>>) -> Whole {
        let mut messages = vec![begin().bytes()];
        messages.extend(inner);
        let last = end(messages.len() as i64, &messages.concat());
        messages.push(last.bytes());
        Whole { messages }
    }

    /// The messages of a stream that is one and whole.
    fn of(stream: &[u8]) -> Option<Whole> {
        let turns = turns(stream);
        let places: Vec<usize> = turns.iter().map(|turn| turn.place).collect();
        let ends = places.iter().skip(1).copied().chain([stream.len()]);
        let messages = places.iter().zip(ends);
        is_one_whole(&turns).then(|| Whole {
            messages: messages
                .map(|(start, end)| stream[*start..end].to_vec())
                .collect(),
        })
    }

    /// Any messages of one evening, some of each kind and some unknown.
    fn any(random: &mut Random) -> Whole {
        let tonight = random.between(1, *DAY_NUMBER.end());
        let mut kinds = Kind::OF_SECURITIES.to_vec();
        let more = random.below(12);
        kinds.extend((0..more).map(|_| random.pick(&Kind::OF_SECURITIES)));
        let mut inner: Vec<Vec<u8>> = Vec::new();
        for kind in kinds {
            let place = random.below(inner.len() + 1);
            let message = if has_day(kind) {
                message_with(random, kind, DAY_PLACE, tonight)
            } else {
                of_securities(random, kind)
            };
            inner.insert(place, message.bytes());
        }
        let place = random.below(inner.len() + 1);
        inner.insert(place, any_unknown(random));
        Whole::around(inner)
    }

    /// The same messages, each of the day before.
    fn yesterday(&self) -> Whole {
        let inner = &self.messages[1..self.messages.len() - 1];
        Whole::around(inner.iter().map(|bytes| day_before(bytes)).collect())
    }

    fn bytes(&self) -> Vec<u8> {
        self.messages.concat()
    }

    /// Whether it has what every damage needs: statics, rates, and two neighbours
    /// that differ.
    fn has_enough(&self) -> bool {
        let has = |wanted: Kind| {
            let mut kinds = self.messages.iter().map(|bytes| kind_of(bytes));
            kinds.any(|kind| kind == Some(wanted))
        };
        has(Kind::Statics) && has(Kind::Rates)
    }

    /// The place of any message between `begin` and `end`.
    fn any_inner(&self, random: &mut Random) -> usize {
        1 + random.below(self.messages.len() - 2)
    }

    /// The place of any message of these kinds.
    fn any_of(&self, random: &mut Random, kinds: &[Kind]) -> usize {
        let is_one = |place: &usize| {
            kind_of(&self.messages[*place]).map_or(false, |kind| kinds.contains(&kind))
        };
        let places: Vec<usize> = (0..self.messages.len()).filter(is_one).collect();
        random.pick(&places)
    }

    /// The places of any two neighbours that differ, the first of them.
    fn any_neighbours(&self, random: &mut Random) -> usize {
        let differ = |place: &usize| self.messages[*place] != self.messages[place + 1];
        let places: Vec<usize> = (1..self.messages.len() - 2).filter(differ).collect();
        random.pick(&places)
    }
}

fn heard(bytes: &[u8]) -> Option<Message> {
    match message::read(bytes, 0) {
        Ok((Heard::Message(message), _)) => Some(message),
        _ => None,
    }
}

fn kind_of(bytes: &[u8]) -> Option<Kind> {
    heard(bytes).map(|message| message.kind())
}

fn day_before(bytes: &[u8]) -> Vec<u8> {
    match heard(bytes) {
        Some(message) if has_day(message.kind()) => {
            let mut fields = message.fields().to_vec();
            fields[DAY_PLACE] = (fields[DAY_PLACE] - 1).max(*DAY_NUMBER.start());
            Message::new(message.kind(), fields).bytes()
        }
        _ => bytes.to_vec(),
    }
}

/// A message with a bit of some bytes flipped, so that it is still accepted.
fn flipped(random: &mut Random, message: &[u8], place: usize, bytes: usize) -> Vec<u8> {
    let bits = 8 * bytes;
    let first = random.below(bits);
    let mut any = (first..first + bits).map(|bit| {
        let mut flipped = message.to_vec();
        flipped[place + bit % bits / 8] ^= 1 << (bit % 8);
        flipped
    });
    any.find(|flipped| heard(flipped).is_some())
        .expect("some bit may be another")
}

/// The bytes of a stream that is damaged so.
fn damaged(damage: Damage, random: &mut Random, whole: &Whole, yesterday: &Whole) -> Vec<u8> {
    let mut changed = whole.clone();
    let messages = &mut changed.messages;
    match damage {
        Damage::PriceBit => {
            let at = whole.any_of(random, &[Kind::Rates]);
            messages[at] = flipped(random, &whole.messages[at], PRICE_PLACE, 8);
        }
        Damage::IdBit => {
            let at = whole.any_of(random, &Kind::OF_SECURITIES);
            messages[at] = flipped(random, &whole.messages[at], ID_PLACE, 4);
        }
        Damage::YesForNo => {
            let at = whole.any_of(random, &[Kind::Statics]);
            messages[at][random.pick(&FLAG_PLACES)] ^= 1;
        }
        Damage::OutOfRange => {
            let at = whole.any_of(random, &Kind::OF_SECURITIES);
            messages[at][ID_PLACE..ID_PLACE + 4].fill(0);
        }
        Damage::LengthBit => {
            let at = whole.any_of(random, &Kind::ALL);
            messages[at][random.below(LENGTH_BYTES)] ^= 1 << random.below(8);
        }
        Damage::UnknownKind => {
            let at = whole.any_of(random, &Kind::OF_SECURITIES);
            messages[at][LENGTH_BYTES..ID_PLACE].copy_from_slice(&UNKNOWN.to_le_bytes());
        }
        Damage::Dropped => {
            messages.remove(whole.any_inner(random));
        }
        Damage::Doubled => {
            let at = whole.any_inner(random);
            messages.insert(at, whole.messages[at].clone());
        }
        Damage::Exchanged => {
            let at = whole.any_neighbours(random);
            messages.swap(at, at + 1);
        }
        Damage::PutIn => {
            let put_in = yesterday.messages[yesterday.any_inner(random)].clone();
            messages.insert(whole.any_inner(random), put_in);
        }
        Damage::EndOfAnother => {
            messages.pop();
            messages.extend(yesterday.messages.last().cloned());
        }
        Damage::HeadLost => {
            messages.drain(..whole.any_inner(random));
        }
        Damage::TailLost => messages.truncate(whole.any_inner(random)),
        Damage::TailCut => {
            let at = random.below(messages.len());
            messages.truncate(at + 1);
            let bytes = random.between(1, messages[at].len() as i64 - 1) as usize;
            messages[at].truncate(bytes);
        }
        Damage::ByteLost => {
            let mut bytes = whole.bytes();
            bytes.remove(random.below(bytes.len()));
            return bytes;
        }
        Damage::ByteAdded => {
            let mut bytes = whole.bytes();
            bytes.insert(random.below(bytes.len() + 1), random.below(256) as u8);
            return bytes;
        }
        Damage::Zeros => {
            let mut bytes = whole.bytes();
            let places: Vec<usize> = (0..bytes.len()).filter(|at| bytes[*at] != 0).collect();
            let start = random.pick(&places);
            let end = bytes.len().min(start + 1 + random.below(PIECE));
            bytes[start..end].fill(0);
            return bytes;
        }
        Damage::BegunAnew => {
            messages.truncate(whole.any_inner(random));
            messages.extend(whole.messages.iter().cloned());
        }
        Damage::Several => return [yesterday.bytes(), whole.bytes()].concat(),
        Damage::Yesterday => return yesterday.bytes(),
    }
    changed.bytes()
}

/// Writes each of so many whole streams, and of those that the further index
/// names, to a file of the folder, and each of its twenty damages to another; and
/// a line for each, which asks for one whole stream.
pub fn write(
    seed: u64,
    count: usize,
    folder: &Path,
    further: impl BufRead,
    mut index: impl Write,
) -> io::Result<()> {
    let mut random = Random::new(seed);
    std::fs::create_dir_all(folder)?;
    let mut streams: Vec<Whole> = (0..count).map(|_| Whole::any(&mut random)).collect();
    for file in further.lines() {
        let file = file?;
        let not_whole = || io::Error::new(io::ErrorKind::Other, format!("{file} is not whole"));
        streams.push(Whole::of(&std::fs::read(&file)?).ok_or_else(not_whole)?);
    }
    streams.retain(Whole::has_enough);
    for (whole, number) in streams.iter().zip(1..) {
        let yesterday = whole.yesterday();
        let mut write = |damage: usize, bytes: Vec<u8>| -> io::Result<()> {
            let file = folder.join(format!("{number:04}-{damage:02}"));
            std::fs::write(&file, bytes)?;
            writeln!(index, "{WHOLE} {}", file.display())
        };
        write(0, whole.bytes())?;
        for (damage, place) in Damage::ALL.into_iter().zip(1..) {
            write(place, damaged(damage, &mut random, whole, &yesterday))?;
        }
    }
    index.flush()
}
