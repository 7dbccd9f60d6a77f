//! The sentences of W-203 one after the other, with why a line is bad: a
//! second reading without haste, for the counts of edges and the reader's test.

use crate::evaluation::ROW;
use crate::units::{Range, CENTRAL_RATE, DAYS_AHEAD, ID, REPO_RATE, ROW_PRICE, ROW_VOLUME};

/// Fields of a line.
pub const FIELDS: usize = 1 + ROW;

/// Places of the fields.
pub const REPO: usize = 3;
pub const CLOSE: usize = 4;
pub const PRICES: [usize; 3] = [CLOSE, 5, 6];
pub const VOLUME: usize = 7;

/// What a field may be.
pub struct Field {
    pub name: &'static str,
    /// In units of the last decimal.
    pub range: Range,
    pub places: usize,
    pub may_be_negative: bool,
    pub may_be_empty: bool,
    /// Zeros may follow the last decimal.
    pub zeros_follow: bool,
}

const fn whole(name: &'static str, range: Range) -> Field {
    Field {
        name,
        range,
        places: 0,
        may_be_negative: false,
        may_be_empty: false,
        zeros_follow: false,
    }
}

const fn price(name: &'static str) -> Field {
    Field {
        name,
        range: ROW_PRICE,
        places: 4,
        may_be_negative: false,
        may_be_empty: true,
        zeros_follow: true,
    }
}

/// The fields in their order.
pub static LINE: [Field; FIELDS] = [
    whole("ID", ID),
    whole("T", DAYS_AHEAD),
    Field {
        places: 4,
        ..whole("RC", CENTRAL_RATE)
    },
    Field {
        places: 2,
        may_be_negative: true,
        ..whole("REPO", REPO_RATE)
    },
    price("CLOSE"),
    price("BID"),
    price("ASK"),
    whole("VOLUME", ROW_VOLUME),
];

/// Why a field is bad.
#[derive(Clone, Copy, Debug, PartialEq, Eq, PartialOrd, Ord)]
pub enum Fault {
    Empty,
    Nul,
    High,
    CarriageReturn,
    Blank,
    Plus,
    Minus,
    Exponent,
    /// The byte before `0` or the one after `9`.
    Beside,
    Other,
    NoDigitBefore,
    NoDigitAfter,
    TwoPoints,
    PointInWhole,
    /// Too many decimals, the extra ones zeros.
    ExtraZeros,
    /// Too many decimals, the first extra one not zero.
    NextDecimal,
    /// Too many decimals, a later one not zero.
    LaterDecimal,
    OneBelow,
    OneAbove,
    OutOfRange,
    PastSixtyFour,
    /// Past 64 bits, and in range if it were cut to them.
    Wraps,
}

impl Fault {
    /// Every fault and its name.
    pub const ALL: [(Fault, &'static str); 22] = [
        (Fault::Empty, "empty"),
        (Fault::Nul, "a NUL"),
        (Fault::High, "a byte above 127"),
        (Fault::CarriageReturn, "a CR"),
        (Fault::Blank, "a blank"),
        (Fault::Plus, "a plus"),
        (Fault::Minus, "a minus"),
        (Fault::Exponent, "an exponent"),
        (Fault::Beside, "a byte beside the digits"),
        (Fault::Other, "another byte"),
        (Fault::NoDigitBefore, "no digit before the point"),
        (Fault::NoDigitAfter, "no digit after the point"),
        (Fault::TwoPoints, "two points"),
        (Fault::PointInWhole, "a point in a whole number"),
        (Fault::ExtraZeros, "zeros as extra decimals"),
        (Fault::NextDecimal, "an extra decimal"),
        (Fault::LaterDecimal, "an extra decimal after zeros"),
        (Fault::OneBelow, "one below its least"),
        (Fault::OneAbove, "one above its most"),
        (Fault::OutOfRange, "farther out of range"),
        (Fault::PastSixtyFour, "past 64 bits"),
        (Fault::Wraps, "in range if cut to 64 bits"),
    ];

    /// Whether a field can have it.
    pub fn is_of(self, field: &Field) -> bool {
        match self {
            Fault::Empty => !field.may_be_empty,
            Fault::TwoPoints | Fault::NextDecimal | Fault::LaterDecimal => field.places > 0,
            Fault::PointInWhole => field.places == 0,
            Fault::ExtraZeros => field.places > 0 && !field.zeros_follow,
            Fault::OneBelow => field.may_be_negative || *field.range.start() > 0,
            _ => true,
        }
    }
}

/// The number of a field, or why it is bad.
pub fn field(field: &Field, bytes: &[u8]) -> Result<i64, Fault> {
    if bytes.is_empty() {
        return if field.may_be_empty {
            Ok(0)
        } else {
            Err(Fault::Empty)
        };
    }
    let (is_negative, digits) = match bytes {
        [b'-', digits @ ..] if field.may_be_negative => (true, digits),
        digits => (false, digits),
    };
    if let Some(fault) = strange(bytes, digits) {
        return Err(fault);
    }
    let number = decimal(field, digits)?;
    in_range(field, is_negative, &number)
}

/// The fault of a byte that is in no number; `digits` has no sign any more.
fn strange(bytes: &[u8], digits: &[u8]) -> Option<Fault> {
    let faults = [
        (Fault::Nul, (|byte| byte == 0) as fn(u8) -> bool),
        (Fault::High, |byte| byte > 127),
        (Fault::CarriageReturn, |byte| byte == b'\r'),
        (Fault::Blank, |byte| byte == b' ' || byte == b'\t'),
        (Fault::Plus, |byte| byte == b'+'),
        (Fault::Minus, |byte| byte == b'-'),
        (Fault::Exponent, |byte| byte == b'e' || byte == b'E'),
        (Fault::Beside, |byte| byte == b'/' || byte == b':'),
        (Fault::Other, |byte| !matches!(byte, b'0'..=b'9' | b'.')),
    ];
    let has = |is: fn(u8) -> bool| digits.iter().any(|byte| is(*byte));
    let found = faults.iter().find(|(_, is)| has(*is));
    // A minus with nothing behind it is no number either.
    let alone = (bytes == b"-").then_some(Fault::Minus);
    found.map(|(fault, _)| *fault).or(alone)
}

/// The digits of a number in units of the field's last decimal.
fn decimal(field: &Field, bytes: &[u8]) -> Result<Vec<u8>, Fault> {
    let parts: Vec<&[u8]> = bytes.split(|byte| *byte == b'.').collect();
    let (before, after) = match parts[..] {
        [before] => (before, None),
        [before, after] => (before, Some(after)),
        _ => return Err(Fault::TwoPoints),
    };
    if before.is_empty() {
        return Err(Fault::NoDigitBefore);
    }
    let after = after.unwrap_or(b"0");
    if after.is_empty() {
        return Err(Fault::NoDigitAfter);
    }
    if parts.len() == 2 && field.places == 0 {
        return Err(Fault::PointInWhole);
    }
    let (kept, extra) = after.split_at(after.len().min(field.places));
    // A whole number has no decimals: the 0 that stands for none is not one.
    let extra = if parts.len() == 2 { extra } else { b"" };
    match extra.iter().position(|digit| *digit != b'0') {
        Some(0) => return Err(Fault::NextDecimal),
        Some(_) => return Err(Fault::LaterDecimal),
        None if !extra.is_empty() && !field.zeros_follow => return Err(Fault::ExtraZeros),
        None => {}
    }
    let mut digits = [before, kept].concat();
    digits.resize(before.len() + field.places, b'0');
    Ok(digits)
}

fn in_range(field: &Field, is_negative: bool, digits: &[u8]) -> Result<i64, Fault> {
    let zeros = digits.iter().take_while(|digit| **digit == b'0').count();
    let digits = &digits[zeros..];
    // 38 digits fit 128 bits.
    if digits.len() > 38 {
        return Err(Fault::PastSixtyFour);
    }
    let add = |value: i128, digit: &u8| 10 * value + i128::from(digit - b'0');
    let size = digits.iter().fold(0, add);
    let value = if is_negative { -size } else { size };
    let (least, most) = (*field.range.start(), *field.range.end());
    match i64::try_from(value) {
        Ok(value) if field.range.contains(&value) => Ok(value),
        Ok(value) if value == least - 1 => Err(Fault::OneBelow),
        Ok(value) if value == most + 1 => Err(Fault::OneAbove),
        Ok(_) => Err(Fault::OutOfRange),
        Err(_) if field.range.contains(&(value as i64)) => Err(Fault::Wraps),
        Err(_) => Err(Fault::PastSixtyFour),
    }
}

/// Why a line is bad.
#[derive(Clone, Copy, Debug, PartialEq, Eq)]
pub enum Bad {
    Unended,
    FewerFields,
    MoreFields,
    /// One field alone, by its place.
    Field(usize, Fault),
    SeveralFields,
    /// Volume above 0 with close 0.
    TradeWithoutClose,
}

/// The fields of a line, which is given with its end, if it has one.
pub fn fields(line: &[u8]) -> Vec<&[u8]> {
    let line = line.strip_suffix(b"\n").unwrap_or(line);
    let line = line.strip_suffix(b"\r").unwrap_or(line);
    line.split(|byte| *byte == b';').collect()
}

/// The numbers of a line, the id first, or why it is bad.
pub fn line(line: &[u8]) -> Result<[i64; FIELDS], Bad> {
    if !line.ends_with(b"\n") {
        return Err(Bad::Unended);
    }
    let fields = fields(line);
    if fields.len() < FIELDS {
        return Err(Bad::FewerFields);
    }
    if fields.len() > FIELDS {
        return Err(Bad::MoreFields);
    }
    let mut numbers = [0; FIELDS];
    let mut bad = None;
    for (place, bytes) in fields.iter().enumerate() {
        match (field(&LINE[place], bytes), bad) {
            (Ok(number), _) => numbers[place] = number,
            (Err(fault), None) => bad = Some(Bad::Field(place, fault)),
            (Err(_), Some(_)) => bad = Some(Bad::SeveralFields),
        }
    }
    match bad {
        Some(bad) => Err(bad),
        None if numbers[VOLUME] > 0 && numbers[CLOSE] == 0 => Err(Bad::TradeWithoutClose),
        None => Ok(numbers),
    }
}
