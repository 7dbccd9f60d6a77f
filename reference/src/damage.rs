//! Twenty ways in which a whole stream of messages may be damaged on its way to a
//! member, each with what a reader says of it (docs/BROADCAST.md, "Twenty
//! damages").

use crate::listen::{is_one_whole, Said, Turn};
use crate::message::Kind;
use crate::refusal::Refusal;

/// What may have become of a stream, in the order of the page.
#[derive(Clone, Copy, Debug, PartialEq, Eq)]
pub enum Damage {
    PriceBit,
    IdBit,
    YesForNo,
    OutOfRange,
    LengthBit,
    UnknownKind,
    Dropped,
    Doubled,
    Exchanged,
    PutIn,
    EndOfAnother,
    HeadLost,
    TailLost,
    TailCut,
    ByteLost,
    ByteAdded,
    Zeros,
    BegunAnew,
    Several,
    Yesterday,
}

/// What a reader says of a damaged stream.
#[derive(Clone, Copy, Debug, PartialEq, Eq)]
pub enum Answer {
    /// The last line is a refusal, by one of these.
    Refused(&'static [Refusal]),
    /// The last line says that the stream is unended.
    Unended,
    /// A stream is unended, and a whole one follows.
    UnendedThenWhole,
    /// Two whole streams.
    TwoWhole,
    /// It is not one whole stream, whatever the lines are.
    NotOneWhole,
    /// One whole stream, whose last DAY is not tonight's.
    WholeOfAnotherDay,
}

impl Damage {
    pub const ALL: [Damage; 20] = [
        Damage::PriceBit,
        Damage::IdBit,
        Damage::YesForNo,
        Damage::OutOfRange,
        Damage::LengthBit,
        Damage::UnknownKind,
        Damage::Dropped,
        Damage::Doubled,
        Damage::Exchanged,
        Damage::PutIn,
        Damage::EndOfAnother,
        Damage::HeadLost,
        Damage::TailLost,
        Damage::TailCut,
        Damage::ByteLost,
        Damage::ByteAdded,
        Damage::Zeros,
        Damage::BegunAnew,
        Damage::Several,
        Damage::Yesterday,
    ];

    /// The page's words for it.
    pub fn name(self) -> &'static str {
        match self {
            Damage::PriceBit => "a bit of a price is another",
            Damage::IdBit => "a bit of an id is another",
            Damage::YesForNo => "a yes is a no, or a no a yes",
            Damage::OutOfRange => "a field is out of its range",
            Damage::LengthBit => "a bit of a length is another",
            Damage::UnknownKind => "a kind is one that nobody knows",
            Damage::Dropped => "a message is missing",
            Damage::Doubled => "a message is there twice",
            Damage::Exchanged => "two neighbours are exchanged",
            Damage::PutIn => "a message of yesterday's stream is put in",
            Damage::EndOfAnother => "the end is that of yesterday's stream",
            Damage::HeadLost => "the head is lost, up to a message",
            Damage::TailLost => "the tail is lost, from a message on",
            Damage::TailCut => "the tail is lost, within a message",
            Damage::ByteLost => "a byte is lost",
            Damage::ByteAdded => "a byte is added",
            Damage::Zeros => "a piece is zeros",
            Damage::BegunAnew => "it breaks off and is sent again from its begin",
            Damage::Several => "yesterday's stream stands before it",
            Damage::Yesterday => "it is yesterday's stream",
        }
    }

    pub fn answer(self) -> Answer {
        use Refusal::{FieldOutOfRange, LengthWrong, MessageCut, NotWhole};
        match self {
            Damage::OutOfRange => Answer::Refused(&[FieldOutOfRange]),
            Damage::LengthBit => Answer::Refused(&[MessageCut, LengthWrong]),
            Damage::PriceBit
            | Damage::IdBit
            | Damage::YesForNo
            | Damage::UnknownKind
            | Damage::Dropped
            | Damage::Doubled
            | Damage::Exchanged
            | Damage::PutIn
            | Damage::EndOfAnother
            | Damage::HeadLost => Answer::Refused(&[NotWhole]),
            Damage::TailLost => Answer::Unended,
            Damage::TailCut => Answer::Refused(&[MessageCut]),
            Damage::ByteLost | Damage::ByteAdded | Damage::Zeros => Answer::NotOneWhole,
            Damage::BegunAnew => Answer::UnendedThenWhole,
            Damage::Several => Answer::TwoWhole,
            Damage::Yesterday => Answer::WholeOfAnotherDay,
        }
    }
}

impl Answer {
    /// Whether it is what a reader said of a stream, tonight's DAY being this.
    pub fn is_of(self, turns: &[Turn], tonight: Option<i64>) -> bool {
        let is_last = |is: fn(&Said) -> bool| turns.last().map_or(false, |turn| is(&turn.said));
        let unended = || turns.iter().filter(|turn| is_unended(&turn.said)).count();
        let ends = || {
            let messages = turns.iter().filter_map(Turn::message);
            messages
                .filter(|message| message.kind() == Kind::End)
                .count()
        };
        if self == Answer::WholeOfAnotherDay {
            return is_one_whole(turns) && last_day(turns) != tonight;
        }
        !is_one_whole(turns)
            && match self {
                Answer::Refused(by) => turns.last().map_or(false, |turn| match turn.said {
                    Said::Refused(refusal) => by.contains(&refusal),
                    _ => false,
                }),
                Answer::Unended => is_last(is_unended) && unended() == 1,
                Answer::UnendedThenWhole => is_last(is_heard) && unended() == 1 && ends() == 1,
                Answer::TwoWhole => is_last(is_heard) && unended() == 0 && ends() == 2,
                Answer::NotOneWhole | Answer::WholeOfAnotherDay => true,
            }
    }
}

fn is_unended(said: &Said) -> bool {
    matches!(said, Said::Unended(_))
}

fn is_heard(said: &Said) -> bool {
    matches!(said, Said::Heard(_))
}

/// The place of DAY among the fields of the kinds that have it.
pub const DAY_PLACE: usize = 1;

/// Whether messages of a kind have a DAY.
pub fn has_day(kind: Kind) -> bool {
    let field = kind.fields().get(DAY_PLACE);
    field.map_or(false, |field| field.name == "DAY")
}

/// The last day of a stream, by which a member knows its evening.
pub fn last_day(turns: &[Turn]) -> Option<i64> {
    let messages = turns.iter().filter_map(Turn::message);
    let dated = messages.filter(|message| has_day(message.kind()));
    dated.map(|message| message.fields()[DAY_PLACE]).max()
}
