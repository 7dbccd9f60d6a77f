//! Runs three programs on texts, by turns, a process each, and prints the least and the median time of each on a text:
//! the processor's, of the process alone, and the clock's. Their answers must be equal.
//!
//!     turns OURS REFERENCE RIVAL TEXT...

use std::fs::File;
use std::process::{Command, Stdio};
use std::time::Instant;

const RUNS: usize = 15;
const SIDES: [&str; 3] = ["ours", "the reference", "the rival"];

/// What the system says of the processes that have ended: user and system time first, in seconds and microseconds.
#[repr(C)]
struct Usage {
    times: [[i64; 2]; 2],
    others: [i64; 14],
}

/// All processes that this one has waited for.
const CHILDREN: i32 = -1;

extern "C" {
    fn getrusage(who: i32, usage: *mut Usage) -> i32;
}

/// The processor's time of all runs so far, in milliseconds.
fn processor_ms() -> f64 {
    let mut usage = Usage {
        times: [[0; 2]; 2],
        others: [0; 14],
    };
    let status = unsafe { getrusage(CHILDREN, &mut usage) };
    assert_eq!(status, 0, "the system says nothing of its processes");
    let ms = |[seconds, microseconds]: [i64; 2]| seconds as f64 * 1e3 + microseconds as f64 / 1e3;
    usage.times.map(ms).iter().sum()
}

/// The times of a run, in milliseconds.
#[derive(Clone, Copy)]
struct Times {
    processor: f64,
    clock: f64,
}

/// A run of a program on a text: its times, and its answer.
fn run(command: &str, text: &str) -> (Times, Vec<u8>) {
    let mut words = command.split_whitespace();
    let mut program = Command::new(words.next().expect("a command has a word"));
    let text = File::open(text).expect("the text can be read");
    program.args(words).stdin(text).stderr(Stdio::inherit());
    let (before, start) = (processor_ms(), Instant::now());
    let output = program.output().expect("the program runs");
    let clock = start.elapsed().as_nanos() as f64 / 1e6;
    assert!(
        output.status.success(),
        "{command} has another status than 0"
    );
    let processor = processor_ms() - before;
    (Times { processor, clock }, output.stdout)
}

/// The least and the median.
struct Spread {
    least: f64,
    median: f64,
}

fn spread(times: &[Times], of: fn(&Times) -> f64) -> Spread {
    let mut times: Vec<f64> = times.iter().map(of).collect();
    times.sort_by(|a, b| a.total_cmp(b));
    Spread {
        least: times[0],
        median: times[times.len() / 2],
    }
}

fn measure(text: &str, commands: [&str; 3]) {
    let mut times = [(); 3].map(|()| Vec::new());
    for _ in 0..RUNS {
        let runs = commands.map(|command| run(command, text));
        for (side, (_, answer)) in SIDES.iter().zip(&runs) {
            assert!(*answer == runs[0].1, "{side} answers otherwise than ours");
        }
        for (times, (taken, _)) in times.iter_mut().zip(runs) {
            times.push(taken);
        }
    }
    println!("{text}, {RUNS} runs by turns; least and median in ms:");
    for (side, times) in SIDES.iter().zip(&times) {
        let processor = spread(times, |times| times.processor);
        let clock = spread(times, |times| times.clock);
        println!(
            "  {side:<14} {:.1} and {:.1} of the processor, {:.1} and {:.1} by the clock",
            processor.least, processor.median, clock.least, clock.median
        );
    }
    let [ours, reference, rival] = times.map(|times| spread(&times, |times| times.processor).least);
    println!(
        "  ours beside the reference {:.2}, beside the rival {:.2} (the processor's, of the least)",
        ours / reference,
        ours / rival
    );
}

fn main() {
    let words: Vec<String> = std::env::args().skip(1).collect();
    match &words[..] {
        [ours, reference, rival, texts @ ..] => {
            for text in texts {
                measure(text, [ours, reference, rival]);
            }
        }
        _ => panic!("turns OURS REFERENCE RIVAL TEXT..."),
    }
}
