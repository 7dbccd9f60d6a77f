//! The clock: measures several sides by turns, and says what their times scatter over.

use bench::opaque;

/// How often each side has its turn. A turn is short, so that some are not interrupted on a machine that is busy.
pub const REPEATS: usize = 25;

/// A time of the C library's: seconds and nanoseconds.
#[repr(C)]
struct Timespec {
    seconds: i64,
    nanoseconds: i64,
}

/// The clock that runs while this thread is on a processor: what other programs take meanwhile is not in it.
const THREAD_CLOCK: i32 = 3;

extern "C" {
    fn clock_gettime(clock: i32, time: *mut Timespec) -> i32;
}

fn now_ns() -> f64 {
    let mut time = Timespec {
        seconds: 0,
        nanoseconds: 0,
    };
    let status = unsafe { clock_gettime(THREAD_CLOCK, &mut time) };
    assert_eq!(status, 0, "there is no clock of the thread");
    time.seconds as f64 * 1e9 + time.nanoseconds as f64
}

/// Nanoseconds for one of `count`.
pub fn once(count: f64, mut run: impl FnMut() -> u64) -> f64 {
    let start = now_ns();
    opaque(run());
    (now_ns() - start) / count
}

/// Nanoseconds: the least, the median and the greatest of the repeats.
pub struct Spread {
    pub least: f64,
    pub median: f64,
    pub most: f64,
}

fn spread(mut times: Vec<f64>) -> Spread {
    times.sort_by(|a, b| a.total_cmp(b));
    Spread {
        least: times[0],
        median: times[times.len() / 2],
        most: times[times.len() - 1],
    }
}

/// All sides by turns, so that whatever else the machine does falls on each.
pub fn by_turns<const SIDES: usize>(
    count: f64,
    sides: [&dyn Fn() -> u64; SIDES],
) -> [Spread; SIDES] {
    let mut times = [(); SIDES].map(|()| Vec::new());
    for turn in 0..=REPEATS {
        for (times, side) in times.iter_mut().zip(sides) {
            let time = once(count, side);
            // The first turn warms the caches.
            if turn > 0 {
                times.push(time);
            }
        }
    }
    times.map(spread)
}

/// The least of the repeats.
pub fn least(count: f64, run: impl Fn() -> u64) -> f64 {
    (0..REPEATS)
        .map(|_| once(count, &run))
        .fold(f64::INFINITY, f64::min)
}

/// A side's line: the median, and the spread.
pub fn line(name: &str, spread: &Spread) {
    println!(
        "{name:<44} {:>8.0} ns  ({:.0} to {:.0})",
        spread.median, spread.least, spread.most
    );
}

/// How two sides compare.
pub fn ratios(one: &Spread, other: &Spread) -> String {
    let medians = one.median / other.median;
    let least = one.least / other.least;
    format!("{medians:.2} of the medians, {least:.2} of the least")
}
