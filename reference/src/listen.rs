//! What a reader prints of messages (W-212): a line for each, until the end of
//! the input or a refused one. An `end` is judged behind the message's own rules
//! (25), and a stream that began and has no end is said to be unended.

use std::fmt;
use std::io::{self, BufRead, Read, Write};

use crate::message::{self, Heard, Kind, Message};
use crate::refusal::Refusal;
use crate::stream::Bounds;

/// The word of an index, or of a command, that asks for one whole stream.
pub const WHOLE: &str = "--whole";
/// What is said of an input that is not one whole stream.
pub const NOT_WHOLE: &str = "listen: not one whole stream";

/// What a reader says.
#[derive(Clone, Debug, PartialEq, Eq)]
pub enum Said {
    Heard(Heard),
    Refused(Refusal),
    /// A stream of so many messages has no end.
    Unended(i64),
}

/// What a reader says of a place of its input.
#[derive(Clone, Debug, PartialEq, Eq)]
pub struct Turn {
    pub place: usize,
    pub said: Said,
}

impl Turn {
    /// The message that is accepted here.
    pub fn message(&self) -> Option<&Message> {
        match &self.said {
            Said::Heard(Heard::Message(message)) => Some(message),
            _ => None,
        }
    }

    fn is_kind(&self, kind: Kind) -> bool {
        self.message()
            .map_or(false, |message| message.kind() == kind)
    }
}

impl fmt::Display for Message {
    fn fmt(&self, f: &mut fmt::Formatter<'_>) -> fmt::Result {
        write!(f, "{}", self.kind().word())?;
        let mut fields = self.fields().iter();
        fields.try_for_each(|field| write!(f, " {field}"))
    }
}

impl fmt::Display for Turn {
    fn fmt(&self, f: &mut fmt::Formatter<'_>) -> fmt::Result {
        match &self.said {
            Said::Heard(Heard::Message(message)) => message.fmt(f),
            Said::Heard(Heard::Unknown { kind, length }) => write!(f, "unknown {kind} {length}"),
            Said::Refused(refusal) => write!(f, "refused {} {}", refusal.number(), self.place),
            Said::Unended(messages) => write!(f, "unended {messages}"),
        }
    }
}

/// Reads the message at a place as the bounds of the stream let it: 25 comes
/// behind the message's own refusals.
fn read(input: &[u8], place: usize, bounds: Bounds) -> Result<(Heard, usize), Refusal> {
    let (heard, after) = message::read(input, place)?;
    match &heard {
        Heard::Message(end) if end.kind() == Kind::End && !bounds.is_end(input, place, end) => {
            Err(Refusal::NotWhole)
        }
        _ => Ok((heard, after)),
    }
}

/// What a reader says of an input: a turn a message, the last one a refusal or
/// the last of the input; a stream is unended where another begins, or the input
/// ends, before its end.
pub fn turns(input: &[u8]) -> Vec<Turn> {
    let mut turns = Vec::new();
    let mut bounds = Bounds::default();
    let mut place = 0;
    while place < input.len() {
        let (heard, after) = match read(input, place, bounds) {
            Ok(read) => read,
            Err(refusal) => {
                let said = Said::Refused(refusal);
                turns.push(Turn { place, said });
                return turns;
            }
        };
        let kind = match &heard {
            Heard::Message(message) => Some(message.kind()),
            Heard::Unknown { .. } => None,
        };
        if kind == Some(Kind::Begin) {
            turns.extend(unended(bounds, place));
        }
        bounds = bounds.after(place, kind);
        let said = Said::Heard(heard);
        turns.push(Turn { place, said });
        place = after;
    }
    turns.extend(unended(bounds, place));
    turns
}

/// What is said where an open stream has no end.
fn unended(bounds: Bounds, place: usize) -> Option<Turn> {
    let open = bounds.open()?;
    let said = Said::Unended(open.messages);
    Some(Turn { place, said })
}

/// Whether what was said is that of one whole stream: from its `begin` to its
/// `end`, and nothing else.
pub fn is_one_whole(turns: &[Turn]) -> bool {
    let ends = turns.iter().filter(|turn| turn.is_kind(Kind::End)).count();
    let is_unended = |turn: &Turn| matches!(turn.said, Said::Unended(_));
    ends == 1
        && turns
            .first()
            .map_or(false, |turn| turn.is_kind(Kind::Begin))
        && turns.last().map_or(false, |turn| turn.is_kind(Kind::End))
        && !turns.iter().any(is_unended)
}

fn print(turns: &[Turn], output: &mut impl Write) -> io::Result<()> {
    turns.iter().try_for_each(|turn| writeln!(output, "{turn}"))
}

/// Prints what the messages of the input say, and gives whether it is one whole
/// stream.
pub fn listen(mut input: impl Read, mut output: impl Write) -> io::Result<bool> {
    let mut stream = Vec::new();
    input.read_to_end(&mut stream)?;
    let turns = turns(&stream);
    print(&turns, &mut output)?;
    output.flush()?;
    Ok(is_one_whole(&turns))
}

/// Shows each stream of an index, which has a line a stream: its file, behind the
/// word that asks for a whole one or not.
pub fn each(
    index: impl BufRead,
    mut see: impl FnMut(&str, Vec<u8>) -> io::Result<()>,
) -> io::Result<()> {
    for line in index.lines() {
        let line = line?;
        let file = line.rsplit(' ').next().unwrap_or_default();
        see(&line, std::fs::read(file)?)?;
    }
    Ok(())
}

/// Prints each line of an index, what the messages of its file say, and where it
/// asks for one whole stream whether it is none.
pub fn listen_index(index: impl BufRead, mut output: impl Write) -> io::Result<()> {
    each(index, |line, stream| {
        writeln!(output, "{line}")?;
        let turns = turns(&stream);
        print(&turns, &mut output)?;
        if line.starts_with(WHOLE) && !is_one_whole(&turns) {
            writeln!(output, "{NOT_WHOLE}")?;
        }
        Ok(())
    })?;
    output.flush()
}
