//! Runs two programs on one text of the exchange and on an empty one, by turns, a process each, and prints the time of
//! each: what lies between the two texts is the reading, and the rest is the start. The answers must be equal.
//!
//!     exchange NAME TEXT WORDS OURS THEIRS
//!
//! NAME is `exchange` or `night`, and WORDS are what is asked of it.

use std::fs::File;
use std::process::{Command, Stdio};
use std::time::Instant;

use bench::opaque;
use reference::exchange::{asked_id, read};
use reference::night;

const RUNS: usize = 301;
const TEXTS: usize = 2;
const SIDES: usize = 2;

/// A run of a program on a text: its time in microseconds, and its answer.
fn run(command: &str, asked: &str, text: &str) -> (f64, Vec<u8>) {
    let mut words = command.split_whitespace();
    let mut program = Command::new(words.next().expect("a command has a word"));
    let text = File::open(text).expect("the text can be read");
    program
        .args(words)
        .args(asked.split_whitespace())
        .stdin(text)
        .stderr(Stdio::inherit());
    let start = Instant::now();
    let output = program.output().expect("the program runs");
    let time = start.elapsed().as_nanos() as f64 / 1e3;
    assert!(
        output.status.success(),
        "{command} has another status than 0"
    );
    (time, output.stdout)
}

/// The least and the median.
fn spread(times: &mut [f64]) -> (f64, f64) {
    times.sort_by(|a, b| a.total_cmp(b));
    (times[0], times[times.len() / 2])
}

/// The reference's reading of what is asked.
fn reading(name: &str, asked: &str) -> Box<dyn Fn(&[u8])> {
    if name == "exchange" {
        let id = asked_id(asked.as_bytes()).expect("the id is one");
        return Box::new(move |text| drop(opaque(read(text, id))));
    }
    let words: Vec<&[u8]> = asked.split_whitespace().map(str::as_bytes).collect();
    let asked = night::Asked::from_words(&words).expect("the words are a day and ids");
    Box::new(move |text| drop(opaque(night::evaluations(&asked, text))))
}

fn main() {
    let words: Vec<String> = std::env::args().skip(1).collect();
    let (name, text, asked, commands) = match &words[..] {
        [name, text, asked, ours, theirs] => (name, text, asked, [ours, theirs]),
        _ => panic!("exchange NAME TEXT WORDS OURS THEIRS"),
    };
    let mut times = vec![Vec::new(); TEXTS * SIDES];
    for _ in 0..RUNS {
        for (which, text) in [text.as_str(), "/dev/null"].iter().enumerate() {
            let (ours, said) = run(commands[0], asked, text);
            let (theirs, said_too) = run(commands[1], asked, text);
            assert_eq!(said, said_too, "the two programs' answers differ");
            times[SIDES * which].push(ours);
            times[SIDES * which + 1].push(theirs);
        }
    }
    println!("a text of the exchange, a process each, {RUNS} runs by turns; least and median:");
    for (side, name) in [name.as_str(), "reference"].iter().enumerate() {
        let (least, median) = spread(&mut times[side]);
        let (least_empty, median_empty) = spread(&mut times[SIDES + side]);
        println!(
            "  {name:<10} {least:>6.0} and {median:>6.0} µs, of which the reading {:>5.0} and {:>5.0} µs",
            least - least_empty,
            median - median_empty
        );
    }
    let text = std::fs::read(text).expect("the text can be read");
    let reading = reading(name, asked);
    let mut alone: Vec<f64> = (0..RUNS)
        .map(|_| {
            let start = Instant::now();
            reading(opaque(&text));
            start.elapsed().as_nanos() as f64 / 1e3
        })
        .collect();
    let (least, median) = spread(&mut alone);
    println!("  the reference's reading alone, in one process: {least:.0} and {median:.0} µs");
}
