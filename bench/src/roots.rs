//! Measures the least root by the proved code, which does not divide (W-204), and by Newton's method, which does.

use bench::opaque;

use crate::clock::{by_turns, line, ratios, REPEATS};
use crate::sheet::Random;
use crate::sides::proved_root;

const ROOTS: usize = 10_000;

/// The least x with 10,000·x² >= n, by Newton's method, with a division in each turn.
fn by_newton(n: u64, mut divided: impl FnMut()) -> u64 {
    // x² >= n/10,000 says the same of whole numbers as x² >= least.
    let least = (n + 9_999) / 10_000;
    if least <= 1 {
        return least;
    }
    // From above the root of `least`, rounded down, each turn comes nearer until one does not.
    let bits = u64::BITS - least.leading_zeros();
    let mut x = 1 << ((bits + 1) / 2);
    loop {
        divided();
        let next = (x + least / x) / 2;
        if next >= x {
            break;
        }
        x = next;
    }
    if x * x < least {
        x + 1
    } else {
        x
    }
}

#[inline(never)]
fn root_with_division(n: u64) -> u64 {
    by_newton(n, || ())
}

/// What the root is taken of: (10,000 - a)·s² + a·r² with a, s and r drawn up to `most`, and the edges of the squares.
fn means(most: u64) -> Vec<u64> {
    let mut random = Random::new();
    let mut means = Vec::new();
    while means.len() < ROOTS - 3 {
        let [a, s, r] = [10_001, most + 1, most + 1].map(|n| random.below(n) as u64);
        means.push((10_000 - a) * s * s + a * r * r);
    }
    let square = 10_000 * most * most;
    means.extend([0, square - 1, square]);
    means
}

fn must_agree(means: &[u64]) {
    for &n in means {
        for n in [n, n.saturating_sub(1)] {
            let (one, other) = (proved_root(n), root_with_division(n));
            assert_eq!(one, other, "the two roots of {n} differ");
        }
    }
}

/// The roots of one side of the paper, whose volatilities are at most `most`.
pub fn measure(side: &str, most: u64) {
    let means = means(most);
    must_agree(&means);
    let mut divisions = 0;
    for &n in &means {
        by_newton(n, || divisions += 1);
    }
    let all = |root: fn(u64) -> u64| means.iter().fold(0, |sum, &n| sum ^ root(opaque(n)));
    let [proved, newton] = by_turns(
        ROOTS as f64,
        [&|| all(proved_root), &|| all(root_with_division)],
    );
    println!("{ROOTS} roots as {side} has them, {REPEATS} repeats; for one root:");
    line("  the proved root: no division", &proved);
    line("  the same root by Newton's method", &newton);
    println!(
        "  ratio {}; Newton's method divides {:.1} times for one root",
        ratios(&proved, &newton),
        divisions as f64 / ROOTS as f64
    );
}
