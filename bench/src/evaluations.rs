//! Measures one evaluation by each side, by turns: in sheets of 1 to 512 securities, with 0 to 16 rows, and by its
//! parts.

use bench::opaque;

use crate::clock::{by_turns, least, line, once, ratios, Spread, REPEATS};
use crate::sheet::{
    changed, describe, evaluations, sheet, sheet_with_rows, Security, DAYS, ROWS, SECURITIES,
};
use crate::sides::{
    asked_why, must_agree, proved, proved_anew, proved_reads, proved_root, proved_with_answers,
    reference, total, tuned, Divisions, Side,
};

const MONITORING: usize = 26;
const IS_EWMA: usize = 27;
/// Securities of the tables that grow by rows, and of the counts.
const SOME: usize = 64;
/// What an accepted evaluation counts in the sum of `asked_why`.
const ACCEPTED: u64 = 8;

/// The times of one evaluation, a side each.
struct Times {
    reference: Spread,
    tuned: Spread,
    proved: Spread,
    with_answers: Spread,
    divisions: Spread,
}

fn times(sheet: &[Security]) -> Times {
    for security in sheet {
        must_agree(security, DAYS);
    }
    let divisions: Vec<Divisions> = sheet.iter().map(Divisions::of).collect();
    let divided = || {
        let all = divisions.iter().map(|divisions| divisions.made(DAYS));
        all.fold(0, u64::wrapping_add)
    };
    let [reference, tuned, proved, with_answers, divisions] = by_turns(
        evaluations(sheet),
        [
            &|| total(sheet, DAYS, reference),
            &|| total(sheet, DAYS, tuned),
            &|| total(sheet, DAYS, proved),
            &|| total(sheet, DAYS, proved_with_answers),
            &divided,
        ],
    );
    Times {
        reference,
        tuned,
        proved,
        with_answers,
        divisions,
    }
}

/// The whole sheet.
pub fn whole() {
    let sheet = sheet(SECURITIES);
    describe(&sheet);
    let divisions = Divisions::of(&sheet[0]).count();
    let times = times(&sheet);
    println!("  {ROWS} rows each, {DAYS} days, {REPEATS} repeats by turns; for one evaluation:");
    line("  the reference (Rust, 128-bit integers)", &times.reference);
    line("  the tuned version (Rust)", &times.tuned);
    line("  the proved rules (Rattle)", &times.proved);
    line("  the proved rules with the answer", &times.with_answers);
    line(&format!("  {divisions} divisions alone"), &times.divisions);
    println!(
        "  the proved rules beside the tuned version: {}",
        ratios(&times.proved, &times.tuned)
    );
    println!(
        "  the proved rules beside the reference: {}",
        ratios(&times.proved, &times.reference)
    );
    let sheet_us = |spread: &Spread| spread.median * SECURITIES as f64 / 1e3;
    println!(
        "  the whole sheet: {:.0} µs beside {:.0} µs and {:.0} µs",
        sheet_us(&times.proved),
        sheet_us(&times.tuned),
        sheet_us(&times.reference)
    );
}

fn head(of: &str) {
    println!("for one evaluation in ns, the least of {REPEATS} repeats by turns:");
    println!("{of:>12}   reference   tuned   proved   divisions   proved/tuned");
}

fn row(count: usize, times: &Times) {
    println!(
        "{count:>12} {:>11.0} {:>7.0} {:>8.0} {:>11.0} {:>14.2}",
        times.reference.least,
        times.tuned.least,
        times.proved.least,
        times.divisions.least,
        times.proved.least / times.tuned.least
    );
}

/// How the cost of one evaluation grows with the securities, and with the rows.
pub fn growth() {
    head("securities");
    for securities in [1, 8, 64, SECURITIES] {
        row(securities, &times(&sheet(securities)));
    }
    head("rows");
    for rows in [0, 1, 2, 4, 8, ROWS] {
        row(rows, &times(&sheet_with_rows(SOME, rows)));
    }
}

/// The least time of one evaluation with something changed in every security, by turns again since shares are taken
/// from differences.
fn least_of<const SHEETS: usize>(sheets: &[Vec<Security>; SHEETS], side: Side) -> [f64; SHEETS] {
    let mut times = [f64::INFINITY; SHEETS];
    for _ in 0..REPEATS {
        for (time, sheet) in times.iter_mut().zip(sheets) {
            let one = once(evaluations(sheet), || total(sheet, DAYS, side));
            *time = time.min(one);
        }
    }
    times
}

/// The shares of an evaluation by the proved rules and by the tuned version.
pub fn parts() {
    let sheets = [
        sheet(SECURITIES),
        changed(SECURITIES, |security| security.rows.clear()),
        changed(SECURITIES, |security| security.admit[IS_EWMA] = 0),
        changed(SECURITIES, |security| security.admit[MONITORING] = 0),
    ];
    let proved_times = least_of(&sheets, proved);
    let tuned_times = least_of(&sheets, tuned);
    println!("parts in ns (least of the repeats) of the proved rules and of the tuned version, by leaving one out:");
    let part = |name: &str, of: fn(&[f64; 4]) -> f64| {
        println!(
            "  {name:<42} {:>6.0} {:>6.0}",
            of(&proved_times),
            of(&tuned_times)
        );
    };
    part("whole", |times| times[0]);
    part("rows: 16 judged, converted, weighed", |times| {
        times[0] - times[1]
    });
    part("rates: move, volatility, tentative, levels", |times| {
        times[0] - times[2]
    });
    part("limits: the six monitored band limits", |times| {
        times[0] - times[3]
    });
    let one = &sheets[0][0];
    let read = least(1e5, || proved_reads(one, 100_000));
    let root = least(1e5, || {
        let roots = (0..100_000).map(|i| proved_root(opaque(4_500_000_000_000 + i)));
        roots.fold(0, |sum, root| sum ^ root)
    });
    println!("and alone, of the proved rules:");
    println!("  the root {root:>43.0}");
    println!("  the record judged sound, and its copies {read:>12.0}");
}

/// Asking why beside evaluating: of the same securities as they were admitted, on the same days.
pub fn asking() {
    let sheet = sheet(SECURITIES);
    let whys = total(&sheet, DAYS, asked_why);
    assert!(
        whys >= ACCEPTED * evaluations(&sheet) as u64,
        "an evaluation that is asked of is refused"
    );
    let [evaluating, asking] = by_turns(
        evaluations(&sheet),
        [&|| total(&sheet, DAYS, proved_anew), &|| {
            total(&sheet, DAYS, asked_why)
        }],
    );
    println!("{SECURITIES} securities, {ROWS} rows each, {DAYS} days, {REPEATS} repeats;");
    println!("  for one evaluation, and for asking why of it:");
    line("  evaluating", &evaluating);
    line("  asking why", &asking);
    println!("  ratio {}", ratios(&asking, &evaluating));
}

/// Runs one side alone, for a counter of instructions: over some securities with so many rows, on so many days.
pub fn run_alone(side: &str, rows: usize, days: u64) {
    let sheet = sheet_with_rows(SOME, rows);
    let sum = match side {
        "reference" => total(&sheet, days, reference),
        "tuned" => total(&sheet, days, tuned),
        "proved" => total(&sheet, days, proved),
        "answers" => total(&sheet, days, proved_with_answers),
        "anew" => total(&sheet, days, proved_anew),
        "why" => total(&sheet, days, asked_why),
        "divisions" => {
            let all = sheet
                .iter()
                .map(|security| Divisions::of(security).made(days));
            all.fold(0, u64::wrapping_add)
        }
        _ => panic!("there is no side {side}"),
    };
    opaque(sum);
}
