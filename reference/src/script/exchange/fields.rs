//! Fields of an exchange's line, spelled rightly in every way there is, and
//! wrongly in one way.

use crate::exchange::plain::{Fault, Field};
use crate::random::Random;

/// Zeros by the hundred.
const HUNDREDS: (i64, i64) = (200, 400);
/// Two to the power of 64.
const TWO_TO_64: i128 = 1 << 64;

/// How a number is spelled.
#[derive(Clone, Copy, Debug, Default)]
pub struct Style {
    /// Leading zeros.
    pub zeros: usize,
    /// No fewer decimals than these, within the field's places.
    pub decimals: usize,
    /// Zeros past the last place.
    pub zeros_past: usize,
}

/// Zeros, now and then by the hundred.
pub fn hundreds(random: &mut Random) -> usize {
    random.between(HUNDREDS.0, HUNDREDS.1) as usize
}

impl Style {
    /// Any style of a field: mostly plain.
    fn any(random: &mut Random, field: &Field) -> Style {
        let zeros = match random.below(40) {
            0 => hundreds(random),
            1..=6 => 1 + random.below(4),
            _ => 0,
        };
        let zeros_past = match random.below(20) {
            0 => hundreds(random),
            1..=3 => 1 + random.below(3),
            _ => 0,
        };
        Style {
            zeros,
            decimals: random.below(field.places + 1),
            zeros_past: if field.zeros_follow { zeros_past } else { 0 },
        }
    }
}

/// A number of units of the field's last decimal, spelled.
pub fn spelled(field: &Field, value: i128, style: Style) -> Vec<u8> {
    let unit = 10_i128.pow(field.places as u32);
    let (whole, part) = (value.abs() / unit, value.abs() % unit);
    let sign = if value < 0 { "-" } else { "" };
    let mut spelled = format!("{sign}{}{whole}", "0".repeat(style.zeros));
    let mut decimals = format!("{part:0places$}", places = field.places);
    if style.zeros_past > 0 {
        decimals += &"0".repeat(style.zeros_past);
    } else {
        while decimals.len() > style.decimals && decimals.ends_with('0') {
            decimals.pop();
        }
    }
    if field.places > 0 && !decimals.is_empty() {
        spelled += ".";
        spelled += &decimals;
    }
    spelled.into_bytes()
}

/// A value of the field: at an end, beside one, small, or any.
pub fn value(random: &mut Random, field: &Field) -> i64 {
    let (least, most) = (*field.range.start(), *field.range.end());
    match random.below(12) {
        0 => least,
        1 => most,
        2 => least + 1,
        3 => most - 1,
        4..=6 => random.any_size(most).max(least),
        7 => (10_000 * random.between(0, 30)).clamp(least, most),
        8 => random.between(least, most.min(least + 20)),
        _ => random.between(least, most),
    }
}

/// A value's field in any style. 0 may be empty, or have a minus.
pub fn any_spelling(random: &mut Random, field: &Field, value: i64) -> Vec<u8> {
    if value == 0 && field.may_be_empty && random.chance(60) {
        return Vec::new();
    }
    let style = Style::any(random, field);
    let mut bytes = spelled(field, i128::from(value), style);
    if value == 0 && field.may_be_negative && random.chance(30) {
        bytes.insert(0, b'-');
    }
    bytes
}

/// Bytes that are never part of a number, besides those that have a fault of
/// their own.
const OTHERS: [u8; 14] = [
    b',', b'_', b'x', b'a', b'#', b'\'', b'"', b'(', b'*', b'!', 0x01, 0x0b, 0x0c, 0x7f,
];
/// Bytes above 127; 0xb1 is a `1` but for the highest bit.
const HIGH: [u8; 6] = [0x80, 0xb0, 0xb1, 0xb9, 0xd9, 0xff];

/// A field with one fault.
pub fn faulty(random: &mut Random, field: &Field, fault: Fault) -> Vec<u8> {
    let (least, most) = (
        i128::from(*field.range.start()),
        i128::from(*field.range.end()),
    );
    let good = i128::from(value(random, field));
    let plain = spelled(field, good.abs(), Style::default());
    match fault {
        Fault::Empty => Vec::new(),
        Fault::Nul => with_byte(random, plain, 0),
        Fault::High => {
            let byte = random.pick(&HIGH);
            with_byte(random, plain, byte)
        }
        // At the end of the last field it would belong to the line's end.
        Fault::CarriageReturn => inserted(random, plain, b"\r", false),
        Fault::Blank => {
            let blank = random.pick(&[b" ", b" ", b"\t"]);
            inserted(random, plain, blank, true)
        }
        Fault::Plus => [b"+", &plain[..]].concat(),
        Fault::Minus if field.may_be_negative => misplaced_minus(random),
        Fault::Minus => {
            let plain = random.pick(&[&plain[..], b"0"]);
            [b"-", plain].concat()
        }
        Fault::Exponent => {
            let exponent = random.pick(&[&b"e0"[..], b"E0", b"e", b"e1"]);
            [&plain[..], exponent].concat()
        }
        Fault::Beside => {
            let byte = random.pick(b"/:");
            with_byte(random, plain, byte)
        }
        Fault::Other => {
            let byte = random.pick(&OTHERS);
            with_byte(random, plain, byte)
        }
        _ => miswritten(random, field, fault, [least, most]),
    }
}

/// A field whose bytes are digits and points, and which is bad for its point,
/// its decimals or its range.
fn miswritten(
    random: &mut Random,
    field: &Field,
    fault: Fault,
    [least, most]: [i128; 2],
) -> Vec<u8> {
    let style = Style::any(random, field);
    let digit = random.pick(b"123456789");
    match fault {
        Fault::NoDigitBefore => random.pick(&[&b".5"[..], b".0", b"."]).to_vec(),
        Fault::NoDigitAfter => random.pick(&[&b"5."[..], b"0.", b"05."]).to_vec(),
        Fault::TwoPoints => random.pick(&[&b"1.2.3"[..], b"1..2", b"1.2."]).to_vec(),
        Fault::PointInWhole => random
            .pick(&[&b"1.0"[..], b"1.5", b"7.00", b"0.0"])
            .to_vec(),
        Fault::ExtraZeros => every_place(random, field, b"0"),
        Fault::NextDecimal => every_place(random, field, &[digit]),
        Fault::LaterDecimal => {
            let zeros = random.pick(&[1, 2, 16, 300]);
            every_place(random, field, &[vec![b'0'; zeros], vec![digit]].concat())
        }
        Fault::OneBelow => spelled(field, least - 1, style),
        Fault::OneAbove => spelled(field, most + 1, style),
        Fault::OutOfRange => {
            let beyond = [2, 99, 1 << 31, 1 << 32, (1 << 32) + 7, 1 << 62];
            spelled(field, most + random.pick(&beyond), style)
        }
        Fault::PastSixtyFour => {
            let mut bytes = vec![b'0'; style.zeros];
            bytes.push(digit);
            let more = random.pick(&[19, 20, 39, 300]);
            bytes.resize(bytes.len() + more, b'9');
            bytes
        }
        _ => {
            let times = i128::from(random.between(1, 9));
            let cut = i128::from(value(random, field)).max(0);
            spelled(field, times * TWO_TO_64 + cut, style)
        }
    }
}

/// A number with every decimal it may have, and more.
fn every_place(random: &mut Random, field: &Field, more: &[u8]) -> Vec<u8> {
    let most = i128::from(*field.range.end());
    let style = Style {
        decimals: field.places,
        ..Style::default()
    };
    let value = i128::from(value(random, field).abs().max(1)).min(most - 1);
    [&spelled(field, value, style)[..], more].concat()
}

/// A minus where a number with a sign may not have it.
fn misplaced_minus(random: &mut Random) -> Vec<u8> {
    let misplaced = [&b"-"[..], b"--1", b"1-", b"1-2", b"0-", b"1.-5", b"-1-"];
    random.pick(&misplaced).to_vec()
}

/// The field with a byte in place of one of its own, or somewhere between.
fn with_byte(random: &mut Random, mut bytes: Vec<u8>, byte: u8) -> Vec<u8> {
    if bytes.is_empty() || random.chance(40) {
        return inserted(random, bytes, &[byte], true);
    }
    let place = random.below(bytes.len());
    bytes[place] = byte;
    bytes
}

/// The field with a byte before one of its own, or behind all of them.
fn inserted(random: &mut Random, mut bytes: Vec<u8>, byte: &[u8; 1], behind: bool) -> Vec<u8> {
    let place = random.below(bytes.len() + usize::from(behind));
    bytes.insert(place, byte[0]);
    bytes
}
