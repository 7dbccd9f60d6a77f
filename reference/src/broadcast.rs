//! What members are sent of an evening (W-212), between a `begin` and an `end`:
//! the statics after an accepted admission, the rates and ranges, the bands and
//! the reasons after an accepted evaluation, the moved side after an accepted
//! move, the session after an accepted opening, and nothing else.

use std::io::{self, BufRead, Write};

use crate::message::{Kind, Message, LENGTH, LENGTH_BYTES};
use crate::record::{Record, Side};
use crate::replay::{calls, Call};
use crate::stream::{begin, end};
use crate::why::{self, Level, Price, Reasons, Tentative, Weight};

/// The number of a call that is accepted.
const ACCEPTED: i64 = 0;
/// What stands for a reason where there is none.
const NO_REASON: i64 = 0;

fn statics(record: &Record) -> Message {
    let mut fields = vec![record.id];
    fields.extend(record.statics.numbers());
    Message::new(Kind::Statics, fields)
}

fn rates(record: &Record) -> Message {
    let mut fields = vec![record.id, record.last_day(), record.p1, record.s];
    fields.extend([record.tentative, record.age]);
    fields.extend(record.rates);
    fields.extend(record.upper);
    fields.extend(record.lower);
    Message::new(Kind::Rates, fields)
}

fn bands(record: &Record) -> Message {
    let mut fields = vec![record.id, record.last_day()];
    for term in &record.terms {
        fields.extend([term.days, term.rrcl, term.rrch, term.lower, term.upper]);
    }
    Message::new(Kind::Bands, fields)
}

fn moved(record: &Record, side: Side) -> Message {
    let (number, moves, ranges) = match side {
        Side::Upper => (0, record.moves_upper, record.upper),
        Side::Lower => (1, record.moves_lower, record.lower),
    };
    let mut fields = vec![record.id, number, moves];
    fields.extend(ranges);
    fields.extend(record.terms.map(|term| match side {
        Side::Upper => term.upper,
        Side::Lower => term.lower,
    }));
    Message::new(Kind::Move, fields)
}

/// The number of a reason: its place in the list of such reasons, from 1 on.
fn reason<R: PartialEq>(list: &[R], reason: R) -> i64 {
    let place = list.iter().position(|listed| *listed == reason);
    1 + place.expect("a list has its reasons") as i64
}

fn reasons(record: &Record, given: &Reasons) -> Message {
    let model = given.model.map_or([NO_REASON; 3], |model| {
        [
            reason(&Weight::ALL, model.weight),
            reason(&[true, false], model.is_replaced),
            reason(&Tentative::ALL, model.tentative),
        ]
    });
    let mut fields = vec![record.id, record.last_day()];
    fields.push(reason(&Price::ALL, given.price));
    fields.extend(model);
    fields.extend(given.levels.map(|level| reason(&Level::ALL, level)));
    Message::new(Kind::Reasons, fields)
}

fn session(record: &Record) -> Message {
    Message::new(Kind::Session, vec![record.id, record.last_day()])
}

/// Why an accepted evaluation has its figures.
fn why(call: &Call) -> Option<Reasons> {
    let asked = call.asked()?;
    why::why(call.before.as_ref(), &asked.day()).ok()
}

/// The messages of a call, in their order.
pub fn messages(call: &Call) -> Vec<Message> {
    let record = match &call.after {
        Some(record) if call.answer.number() == ACCEPTED => record,
        _ => return Vec::new(),
    };
    let side = || call.numbers().get(1).copied().and_then(Side::from_number);
    match call.verb {
        b"admit" => vec![statics(record)],
        b"evaluate" => {
            let reasons = why(call).map(|given| reasons(record, &given));
            let figures = [rates(record), bands(record)].into_iter();
            figures.chain(reasons).collect()
        }
        b"move" => side().map(|side| moved(record, side)).into_iter().collect(),
        b"open" => vec![session(record)],
        _ => Vec::new(),
    }
}

/// Hears an evening's lines and writes the messages of those from a line on,
/// counted from 1, between their `begin` and their `end`.
pub fn broadcast(input: impl BufRead, from: u64, mut output: impl Write) -> io::Result<()> {
    let mut sent = Sent::default();
    sent.take(&begin());
    calls(input, |call| {
        if call.line >= from {
            messages(call).iter().for_each(|message| sent.take(message));
        }
    })?;
    sent.take(&end(sent.messages, &sent.bytes));
    output.write_all(&sent.bytes)?;
    output.flush()
}

/// What is sent of an evening.
#[derive(Default)]
struct Sent {
    bytes: Vec<u8>,
    messages: i64,
}

impl Sent {
    fn take(&mut self, message: &Message) {
        // The longest message that there may be has room.
        let mut buffer = [0; LENGTH_BYTES + *LENGTH.end()];
        let written = message.write(&mut buffer);
        let bytes = written.expect("a record's fields are in range, and there is room");
        self.bytes.extend(&buffer[..bytes]);
        self.messages += 1;
    }
}
