//! Evaluates a sheet of securities with 16 rows each by the reference, by the tuned version and by the proved rules
//! (the archives of `sheet` and `sheet_answers`) in one process, by turns, and makes the divisions of an evaluation
//! alone. It prints the time of each, the ratios, the spread over repeats, how the cost grows with the securities and
//! the rows, and the share of each part. Then it asks why of the evaluations beside evaluating, and takes the root by
//! the proved code, which does not divide, and by a root that does.
//!
//!     bench [sides|why|root]          that part alone
//!     bench alone SIDE ROWS DAYS      one side over 64 securities and no clock, for a counter of instructions

mod clock;
mod evaluations;
mod roots;
mod sheet;
mod sides;

fn number<N: std::str::FromStr>(word: &str) -> N {
    let read = word.parse().ok();
    read.unwrap_or_else(|| panic!("{word} is no number"))
}

fn main() {
    let words: Vec<String> = std::env::args().skip(1).collect();
    let words: Vec<&str> = words.iter().map(String::as_str).collect();
    let part = match words[..] {
        [] | [""] => "",
        [part @ ("sides" | "why" | "root")] => part,
        ["alone", side, rows, days] => {
            return evaluations::run_alone(side, number(rows), number(days));
        }
        _ => panic!("there is no part {words:?}"),
    };
    let is_asked = |one: &str| part.is_empty() || part == one;
    if is_asked("sides") {
        evaluations::whole();
        evaluations::growth();
        evaluations::parts();
    }
    if is_asked("why") {
        evaluations::asking();
    }
    if is_asked("root") {
        roots::measure("a share", 1_000_000);
        roots::measure("the interest side", 19_998);
    }
}
