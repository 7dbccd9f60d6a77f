//! The refusals (document 01, "Numbers a member may see"; 14 is W-201's, 15
//! W-203's, 16 W-205's, 17 W-206's, 18 and 19 W-210's, 20 W-211's, 21 to 24
//! W-212's, 25 that of a stream that is not whole).

/// Why a call or a message is refused; each carries the paper's number.
#[derive(Clone, Copy, Debug, PartialEq, Eq)]
pub enum Refusal {
    NoSuchId = 1,
    AlreadyAdmitted = 2,
    NoEmptySlot = 3,
    AdmissionOutOfRange = 4,
    DayNotAfterLast = 5,
    ValueOutOfRange = 6,
    EvaluationOutOfRange = 7,
    MoveTooGreat = 8,
    BandCrossed = 9,
    NotLive = 10,
    NotMonitored = 11,
    MovesExhausted = 12,
    EarlierSecond = 13,
    TermsNotAscending = 14,
    BadLine = 15,
    CrossedRow = 16,
    NoFaceValue = 17,
    NoEveningMove = 18,
    OpenedTwice = 19,
    NoOutsidePrice = 20,
    MessageCut = 21,
    LengthWrong = 22,
    FieldOutOfRange = 23,
    NoRoom = 24,
    NotWhole = 25,
}

impl Refusal {
    /// The greatest number that an evening answers.
    pub const EVENING_LAST: i64 = Refusal::NoOutsidePrice.number();

    /// The number a member sees.
    pub const fn number(self) -> i64 {
        self as i64
    }
}
