//! The kinds of message and their fields, in the order of docs/BROADCAST.md: 1 to
//! 4 are W-212's; 5 to 8 say why, where a stream begins and ends, and when the
//! evening session opens.

use crate::static_ends::FLAG;
use crate::statics::{
    BAND_MAXIMUM, HORIZON, HORIZON_1, LIQ, LOT, MULTIPLIER, NEARNESS, NEAR_SECONDS, SHIFT, STATICS,
    STEP, WAIT, WEIGHT, X_PR,
};
use crate::units::{
    Range, AGE, DAYS_AHEAD, DAY_NUMBER, EVENING_MOVES, ID, LIMIT, MOVE_COUNT, PRICE, RATE,
    REPO_RATE, TENTATIVE, VOLATILITY,
};

/// Bytes of the kind's number, with which what the length counts begins.
pub const KIND_BYTES: usize = 2;

/// The version of the format, which `begin` has.
pub const VERSION: i64 = 1;

/// A field: its name, how many bytes it has, and its range. One that is signed is
/// in two's complement.
#[derive(Debug, PartialEq, Eq)]
pub struct Field {
    pub name: &'static str,
    pub bytes: usize,
    pub range: Range,
    pub is_signed: bool,
}

impl Field {
    /// The number that its bytes spell, the byte of least weight first.
    pub fn number(&self, bytes: &[u8]) -> i64 {
        let is_below_zero = self.is_signed && bytes.last().map_or(false, |last| *last >= 0x80);
        let mut wide = [if is_below_zero { 0xff } else { 0 }; 8];
        wide[..bytes.len()].copy_from_slice(bytes);
        i64::from_le_bytes(wide)
    }

    /// Whether its bytes can spell a number.
    pub fn has(&self, number: i128) -> bool {
        let bits = 8 * self.bytes;
        let (least, most) = if self.is_signed {
            (-(1 << (bits - 1)), (1 << (bits - 1)) - 1)
        } else {
            (0, (1 << bits) - 1)
        };
        (least..=most).contains(&number)
    }
}

const fn field(name: &'static str, bytes: usize, range: Range) -> Field {
    Field {
        name,
        bytes,
        range,
        is_signed: true,
    }
}

/// An id, a rate or another number.
const fn number(name: &'static str, range: Range) -> Field {
    field(name, 4, range)
}

/// A price, a limit, the volatility, or a count of messages.
const fn long(name: &'static str, range: Range) -> Field {
    field(name, 8, range)
}

const fn flag(name: &'static str) -> Field {
    field(name, 1, FLAG)
}

/// A reason: 0 for none, then one of so many.
const fn reason(name: &'static str, most: i64) -> Field {
    field(name, 1, 0..=most)
}

/// A CRC-32, which is every number of its bytes.
const fn sum(name: &'static str) -> Field {
    Field {
        name,
        bytes: 4,
        range: 0..=0xffff_ffff,
        is_signed: false,
    }
}

static STATICS_FIELDS: [Field; 1 + STATICS] = [
    number("ID", ID),
    number("LOT", LOT),
    number("H", STEP),
    number("Q", MULTIPLIER),
    number("A_UP", WEIGHT),
    number("A_DOWN", WEIGHT),
    number("WAIT", WAIT),
    number("RH1", HORIZON_1),
    number("RH2", HORIZON),
    number("RH3", HORIZON),
    number("LIQ", LIQ),
    number("MIN1", RATE),
    number("MIN2", RATE),
    number("MIN3", RATE),
    number("SMAX", RATE),
    number("XPR", X_PR),
    number("SHIFT", SHIFT),
    number("PCHMAX", BAND_MAXIMUM),
    number("PCLMAX", BAND_MAXIMUM),
    number("W", NEARNESS),
    number("U", NEAR_SECONDS),
    flag("MONITORING"),
    flag("ISEWMA"),
    number("UEVENING", NEAR_SECONDS),
    flag("AUTOCHANGE"),
    number("EVENINGMAX", EVENING_MOVES),
    flag("USEEXTERNAL"),
];

static RATES_FIELDS: [Field; 15] = [
    number("ID", ID),
    number("DAY", DAY_NUMBER),
    long("P", PRICE),
    long("S", VOLATILITY),
    number("TENTATIVE", TENTATIVE),
    number("AGE", AGE),
    number("S1", RATE),
    number("S2", RATE),
    number("S3", RATE),
    long("UPPER1", LIMIT),
    long("UPPER2", LIMIT),
    long("UPPER3", LIMIT),
    long("LOWER1", LIMIT),
    long("LOWER2", LIMIT),
    long("LOWER3", LIMIT),
];

static BANDS_FIELDS: [Field; 17] = [
    number("ID", ID),
    number("DAY", DAY_NUMBER),
    number("K0", DAYS_AHEAD),
    number("RRCL0", REPO_RATE),
    number("RRCH0", REPO_RATE),
    long("LOWER0", LIMIT),
    long("UPPER0", LIMIT),
    number("K1", DAYS_AHEAD),
    number("RRCL1", REPO_RATE),
    number("RRCH1", REPO_RATE),
    long("LOWER1", LIMIT),
    long("UPPER1", LIMIT),
    number("K2", DAYS_AHEAD),
    number("RRCL2", REPO_RATE),
    number("RRCH2", REPO_RATE),
    long("LOWER2", LIMIT),
    long("UPPER2", LIMIT),
];

static MOVE_FIELDS: [Field; 9] = [
    number("ID", ID),
    number("SIDE", 0..=1),
    number("COUNT", MOVE_COUNT),
    long("RANGE1", LIMIT),
    long("RANGE2", LIMIT),
    long("RANGE3", LIMIT),
    long("BAND0", LIMIT),
    long("BAND1", LIMIT),
    long("BAND2", LIMIT),
];

static REASONS_FIELDS: [Field; 9] = [
    number("ID", ID),
    number("DAY", DAY_NUMBER),
    reason("PRICE", 4),
    reason("WEIGHT", 3),
    reason("REPLACEMENT", 2),
    reason("TENTATIVE", 4),
    reason("LEVEL1", 3),
    reason("LEVEL2", 3),
    reason("LEVEL3", 3),
];

static BEGIN_FIELDS: [Field; 1] = [number("VERSION", VERSION..=VERSION)];

static END_FIELDS: [Field; 2] = [long("COUNT", 0..=i64::MAX), sum("SUM")];

static SESSION_FIELDS: [Field; 2] = [number("ID", ID), number("DAY", DAY_NUMBER)];

/// A kind that a reader knows; each carries its number.
#[derive(Clone, Copy, Debug, PartialEq, Eq)]
pub enum Kind {
    Statics = 1,
    Rates = 2,
    Bands = 3,
    Move = 4,
    Reasons = 5,
    Begin = 6,
    End = 7,
    Session = 8,
}

impl Kind {
    pub const ALL: [Kind; 8] = [
        Kind::Statics,
        Kind::Rates,
        Kind::Bands,
        Kind::Move,
        Kind::Reasons,
        Kind::Begin,
        Kind::End,
        Kind::Session,
    ];

    /// The kinds that say something of a security; the others bound a stream.
    pub const OF_SECURITIES: [Kind; 6] = [
        Kind::Statics,
        Kind::Rates,
        Kind::Bands,
        Kind::Move,
        Kind::Reasons,
        Kind::Session,
    ];

    pub fn number(self) -> u16 {
        self as u16
    }

    /// The kind of a number; none where it is unknown.
    pub fn from_number(number: u16) -> Option<Kind> {
        Kind::ALL.into_iter().find(|kind| kind.number() == number)
    }

    /// The word with which it is printed.
    pub fn word(self) -> &'static str {
        match self {
            Kind::Statics => "statics",
            Kind::Rates => "rates",
            Kind::Bands => "bands",
            Kind::Move => "move",
            Kind::Reasons => "reasons",
            Kind::Begin => "begin",
            Kind::End => "end",
            Kind::Session => "session",
        }
    }

    pub fn fields(self) -> &'static [Field] {
        match self {
            Kind::Statics => &STATICS_FIELDS,
            Kind::Rates => &RATES_FIELDS,
            Kind::Bands => &BANDS_FIELDS,
            Kind::Move => &MOVE_FIELDS,
            Kind::Reasons => &REASONS_FIELDS,
            Kind::Begin => &BEGIN_FIELDS,
            Kind::End => &END_FIELDS,
            Kind::Session => &SESSION_FIELDS,
        }
    }

    /// What its length says: the bytes of its number and of its fields.
    pub fn length(self) -> usize {
        let fields: usize = self.fields().iter().map(|field| field.bytes).sum();
        KIND_BYTES + fields
    }
}
