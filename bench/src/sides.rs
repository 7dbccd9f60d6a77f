//! The sides that are measured: each evaluates one security on so many days by the rule of `evaluate` (soundness of
//! the record, ranges of the day and of the rows, evaluation, rates, ranges, three bands), leaves the record as it then
//! stands, and adds figures up so that none can be left out. None makes the answer of `evaluate`, which shows the
//! record a second time, but one that is measured for it: the proved rules with the answer.

use bench::{opaque, tuned};
use reference::record::Record;
use reference::security::{admitted, evaluated, Admission, Day, RepoTerm};
use reference::statics::STATICS;

use crate::sheet::{Security, ADMISSION};

/// A call of the archive over so many days of a security.
type OverDays =
    unsafe extern "C" fn(*const [i64; ADMISSION], *const [i64; 6], *const i64, usize, u64) -> u64;

/// Calls of the archives over days, which are all of one shape.
macro_rules! calls_over_days {
    ($($call:ident)+) => {
        extern "C" {
            $(fn $call(
                x: *const [i64; ADMISSION],
                y: *const [i64; 6],
                rows: *const i64,
                rows_len: usize,
                days: u64,
            ) -> u64;)+
        }
    };
}

calls_over_days!(nedrubal_days nedrubal_answers nedrubal_evaluations nedrubal_whys nedrubal_reads);

extern "C" {
    fn nedrubal_root(n: u64) -> u64;
}

fn over_days(call: OverDays, security: &Security, days: u64) -> u64 {
    unsafe {
        call(
            &security.admit,
            &security.day,
            security.rows.as_ptr(),
            security.rows.len(),
            days,
        )
    }
}

/// What takes a security and so many days.
pub type Side = fn(&Security, u64) -> u64;

/// The proved rules, day after day.
pub fn proved(security: &Security, days: u64) -> u64 {
    over_days(nedrubal_days, security, days)
}

/// The proved rules, day after day, with the answer made on each.
pub fn proved_with_answers(security: &Security, days: u64) -> u64 {
    over_days(nedrubal_answers, security, days)
}

/// The proved rules with the answer, each day as the security was admitted.
pub fn proved_anew(security: &Security, days: u64) -> u64 {
    over_days(nedrubal_evaluations, security, days)
}

/// Asking why by the proved rules, each day as the security was admitted.
pub fn asked_why(security: &Security, days: u64) -> u64 {
    over_days(nedrubal_whys, security, days)
}

/// The record judged sound by the proved rule and copied, so many times.
pub fn proved_reads(security: &Security, times: u64) -> u64 {
    over_days(nedrubal_reads, security, times)
}

/// The least x with 10,000·x² ≥ n by the proved code.
pub fn proved_root(n: u64) -> u64 {
    unsafe { nedrubal_root(n) }
}

fn record_of(security: &Security) -> Record {
    let [id, day, p1, p2, s, tentative, ..] = security.admit;
    let mut statics = [0; STATICS];
    statics.copy_from_slice(&security.admit[6..]);
    admitted(&Admission {
        id,
        day,
        p1,
        p2,
        s,
        tentative,
        statics,
    })
    .expect("the admission is in range")
}

/// A later day, with three terms alike.
fn day_of(security: &Security, later: u64) -> Day<'_> {
    let [first, days_between, days_closed, days, rrcl, rrch] = security.day;
    Day {
        number: first + later as i64,
        days_between,
        days_closed,
        terms: [RepoTerm { days, rrcl, rrch }; 3],
        rows: &security.rows,
    }
}

fn figure(record: &Record) -> u64 {
    (record.p1 as u64)
        .wrapping_add(record.s as u64)
        .wrapping_add(record.terms[2].upper as u64)
}

fn evaluated_by_reference(record: &mut Record, day: &Day) {
    // What finding the record in a table tests, as the other sides do.
    assert!(record.is_sound(), "the record is sound");
    *record = evaluated(record, day).expect("the day is accepted");
}

fn evaluated_by_tuned(record: &mut Record, day: &Day) {
    tuned::evaluate(record, day).expect("the day is accepted");
}

fn day_after_day(security: &Security, days: u64, evaluate: impl Fn(&mut Record, &Day)) -> u64 {
    let mut record = record_of(security);
    (0..days).fold(0, |sum: u64, later| {
        evaluate(&mut record, &day_of(security, later));
        sum.wrapping_add(figure(&record))
    })
}

/// The reference, day after day.
pub fn reference(security: &Security, days: u64) -> u64 {
    day_after_day(security, days, evaluated_by_reference)
}

/// The tuned version, day after day.
pub fn tuned(security: &Security, days: u64) -> u64 {
    day_after_day(security, days, evaluated_by_tuned)
}

/// Fails unless all figures of the tuned version are the reference's on each day, and the proved rules' sums, without
/// the answer and with it, are the reference's.
pub fn must_agree(security: &Security, days: u64) {
    let (mut one, mut other) = (record_of(security), record_of(security));
    for later in 0..days {
        let day = day_of(security, later);
        evaluated_by_reference(&mut one, &day);
        evaluated_by_tuned(&mut other, &day);
        assert_eq!(one, other, "the tuned version differs from the reference");
    }
    let sum = reference(security, days);
    for side in [proved, proved_with_answers] {
        assert_eq!(
            side(security, days),
            sum,
            "the proved rules differ from the reference"
        );
    }
}

/// The divisions of one evaluation whose divisor no constant of the paper gives, as 64-bit numbers: three prices of a
/// row by place (a), one close by (c), two moves by (e), t, and six monitored limits by (g), so 58 with 16 rows. What
/// has 10,000 or the grid for its divisor needs no division, nor does a replacement that is not chosen. A version may
/// make fewer, since the prices of a row share a divisor, all six limits share one, and roubles today have none.
pub struct Divisions(Vec<(u64, u64)>);

impl Divisions {
    pub fn of(security: &Security) -> Divisions {
        let mut divisions = Vec::new();
        let (mut turnover, mut weights) = (0, 1);
        for row in security.rows.chunks(7) {
            let divisor = (3_650_000 + row[0] * row[2]) as u64;
            let roubles = |price: i64| (price * row[1] * 365) as u64;
            divisions.extend(row[3..6].iter().map(|price| (roubles(*price), divisor)));
            turnover += row[3] as u64 * row[1] as u64 / 10_000 * row[6] as u64;
            weights += row[6] as u64;
        }
        divisions.push((turnover, weights));
        let [_, _, p1, p2, s, ..] = security.admit.map(|number| number as u64);
        let [h, q, x_pr] = [7, 8, 20].map(|place| security.admit[place] as u64);
        divisions.extend([(p1.abs_diff(p2) * 1_000_000, p1), (p1 * 10_000, p2)]);
        divisions.push((q * s, 10_000 * h));
        let [.., days, low, high] = security.day;
        for repo in [low, high, low, high, low, high] {
            let growth = (3_650_000 + days * repo) as u64;
            divisions.push((p1 * 100 * x_pr * growth, 365_000_000 * x_pr * 10));
        }
        Divisions(divisions)
    }

    /// How many there are.
    pub fn count(&self) -> usize {
        self.0.len()
    }

    /// All of them, so many times; none waits for another.
    pub fn made(&self, days: u64) -> u64 {
        (0..days).fold(0, |sum: u64, _| {
            let quotients = opaque(&self.0).iter().map(|(n, by)| n / by);
            sum.wrapping_add(quotients.fold(0, u64::wrapping_add))
        })
    }
}

/// A side over a whole sheet.
pub fn total(sheet: &[Security], days: u64, side: Side) -> u64 {
    sheet
        .iter()
        .fold(0, |sum, security| sum.wrapping_add(side(security, days)))
}
