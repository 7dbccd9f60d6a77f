//! The edges of fields: accepted at both ends of their ranges, refused 23 for one
//! field alone past them; and kind 1's orders and multiples.

use crate::message::{Field, Kind, Message};
use crate::refusal::Refusal;
use crate::tally::Tally;

use super::Bad;

/// Places among the fields of kind 1: h, and the places of which the next one
/// must not be less, with the places of rates.
const STEP: usize = 2;
const ORDERS: [usize; 5] = [7, 8, 11, 12, 13];
const RATES: [usize; 4] = [11, 12, 13, 14];

const AT_LEAST: &str = "at its least";
const AT_MOST: &str = "at its most";
const ONE_BELOW: &str = "one below";
const ONE_ABOVE: &str = "one above";
const HIGH_BYTES: &str = "in range by the lower half of its bytes";
const ABOVE_MULTIPLE: &str = "one above a multiple of H";
const BELOW_MULTIPLE: &str = "one below a multiple of H";

fn accepted(kind: Kind, field: &Field, edge: &str) -> String {
    format!("{} {} {edge}", kind.word(), field.name)
}

fn refused(kind: Kind, field: &Field, edge: &str) -> String {
    let edge = match (edge, field.bytes) {
        (ONE_BELOW, 1) => "of 255".to_string(),
        (ONE_ABOVE, 1) => format!("of {}", field.range.end() + 1),
        _ => edge.to_string(),
    };
    format!("{} 23: {} {edge}", kind.word(), field.name)
}

fn name(place: usize) -> &'static str {
    Kind::Statics.fields()[place].name
}

fn equal(place: usize) -> String {
    format!("statics {} equal to {}", name(place), name(place + 1))
}

fn crossed(place: usize) -> String {
    let (first, second) = (name(place), name(place + 1));
    format!("statics 23: {first} a step above {second}")
}

fn off(place: usize, edge: &str) -> String {
    format!("statics 23: {} {edge}", name(place))
}

/// Every edge, in the order in which they are told.
pub fn every_edge() -> Vec<String> {
    let mut every = Vec::new();
    for kind in Kind::ALL {
        for field in kind.fields() {
            // An end has what its stream has.
            if kind != Kind::End {
                every.extend([AT_LEAST, AT_MOST].map(|edge| accepted(kind, field, edge)));
            }
            if field.has(i128::from(*field.range.start()) - 1) {
                every.push(refused(kind, field, ONE_BELOW));
            }
            if field.has(i128::from(*field.range.end()) + 1) {
                every.push(refused(kind, field, ONE_ABOVE));
            }
            if field.bytes > 1 && field.is_signed {
                every.push(refused(kind, field, HIGH_BYTES));
            }
        }
    }
    every.extend(ORDERS.map(equal));
    every.extend(ORDERS.map(crossed));
    every.extend(RATES.map(|place| off(place, ABOVE_MULTIPLE)));
    every.extend(RATES.map(|place| off(place, BELOW_MULTIPLE)));
    every
}

/// Meets the edges of an accepted message.
pub fn look_accepted(tally: &mut Tally, message: &Message) {
    let kind = message.kind();
    let fields = kind.fields().iter().filter(|_| kind != Kind::End);
    for (field, value) in fields.zip(message.fields()) {
        if value == field.range.start() {
            tally.meet(&accepted(kind, field, AT_LEAST));
        }
        if value == field.range.end() {
            tally.meet(&accepted(kind, field, AT_MOST));
        }
    }
    if kind == Kind::Statics {
        let values = message.fields();
        let is_equal = |place: &&usize| values[**place] == values[**place + 1];
        ORDERS
            .iter()
            .filter(is_equal)
            .for_each(|place| tally.meet(&equal(*place)));
    }
}

/// Meets the edges of a message that is refused for a field.
pub fn look_refused(tally: &mut Tally, bad: &Bad) {
    let message = match bad.message() {
        Some(message) if bad.refusal == Refusal::FieldOutOfRange => message,
        _ => return,
    };
    let kind = message.kind();
    for (place, field) in kind.fields().iter().enumerate() {
        if let Some(edge) = past(field, message.fields()[place]) {
            if is_alone(&message, place) {
                tally.meet(&refused(kind, field, edge));
            }
        }
    }
    let has_ranges = |(field, value): (&Field, &i64)| field.range.contains(value);
    let mut fields = kind.fields().iter().zip(message.fields());
    if kind == Kind::Statics && fields.all(has_ranges) {
        look_statics(tally, message.fields());
    }
}

/// How a value is past its field's range.
fn past(field: &Field, value: i64) -> Option<&'static str> {
    let low = value & ((1 << (4 * field.bytes)) - 1);
    if value.checked_add(1) == Some(*field.range.start()) {
        Some(ONE_BELOW)
    } else if value.checked_sub(1) == Some(*field.range.end()) {
        Some(ONE_ABOVE)
    } else if !field.range.contains(&value) && field.range.contains(&low) && field.bytes > 1 {
        Some(HIGH_BYTES)
    } else {
        None
    }
}

/// Whether the message is good with another value at this place.
fn is_alone(message: &Message, place: usize) -> bool {
    let field = &message.kind().fields()[place];
    let neighbours = [place.wrapping_sub(1), place + 1];
    let mut others: Vec<i64> = vec![*field.range.start(), *field.range.end()];
    others.extend(
        neighbours
            .iter()
            .filter_map(|place| message.fields().get(*place)),
    );
    others.into_iter().any(|value| {
        let mut fields = message.fields().to_vec();
        fields[place] = value;
        Message::new(message.kind(), fields).is_in_range()
    })
}

/// Meets the edges of kind 1's orders and multiples, where one alone is broken
/// and every field is in its own range.
fn look_statics(tally: &mut Tally, values: &[i64]) {
    let step = values[STEP];
    let crossed_at = |place: &usize| values[*place] > values[*place + 1];
    let is_off = |place: &usize| values[*place] % step != 0;
    let orders: Vec<usize> = ORDERS.into_iter().filter(crossed_at).collect();
    let rates: Vec<usize> = RATES.into_iter().filter(is_off).collect();
    match (&orders[..], &rates[..]) {
        ([place], []) => {
            let unit = if RATES.contains(place) { step } else { 1 };
            if values[*place] == values[place + 1] + unit {
                tally.meet(&crossed(*place));
            }
        }
        ([], [place]) => {
            if values[*place] % step == 1 {
                tally.meet(&off(*place, ABOVE_MULTIPLE));
            }
            if values[*place] % step == step - 1 {
                tally.meet(&off(*place, BELOW_MULTIPLE));
            }
        }
        _ => {}
    }
}
