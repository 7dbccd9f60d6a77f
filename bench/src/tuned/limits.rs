//! Range limits and band limits of an evaluation (10.1, 11.2; W-209), each rounded once: place (g).

use reference::security::RepoTerm;
use reference::statics::Statics;
use reference::units::YEAR_IN_DAY_BP;

use super::divisor::Divisor;

const ONE_IN_BP: u64 = 10_000;
/// x_pr is in hundredths, a rate in ten-thousandths.
const BP_IN_HUNDREDTH: u64 = 100;
pub const YEAR: i64 = YEAR_IN_DAY_BP as i64;
/// P·(x_pr + S_1) up to which its product with a term's growth, at most 3,949,970, and one divisor more fit 64 bits.
const NARROW_MOST: u64 = 4_000_000_000_000;

/// The range of a level.
#[derive(Clone, Copy)]
pub struct RangeLimits {
    pub lower: i64,
    pub upper: i64,
}

/// The band of a term.
#[derive(Clone, Copy)]
pub struct Band {
    pub lower: i64,
    pub upper: i64,
}

impl Band {
    pub fn is_crossed(&self) -> bool {
        self.lower > self.upper
    }
}

/// P·(1 ± S_L), half up: a division by a constant.
#[inline(always)]
pub fn range<const GRID: u64>(p: i64, rate: i64) -> RangeLimits {
    let whole = ONE_IN_BP * GRID;
    let half_up = |n: u64| ((n + whole / 2) / whole * GRID) as i64;
    let (p, rate) = (p as u64, rate as u64);
    RangeLimits {
        lower: half_up(p * (ONE_IN_BP - rate)),
        upper: half_up(p * (ONE_IN_BP + rate)),
    }
}

/// The bands of an evaluation, where c is 0 on both sides. Each of the two limits of a side is rounded inward and then
/// the narrower taken: a rounding keeps order, so that this is the narrower one, rounded once. The farthest limit is
/// the same in every term.
#[inline(always)]
pub fn bands<const GRID: u64>(
    statics: &Statics,
    p: i64,
    s_1: i64,
    terms: &[RepoTerm; 3],
) -> [Band; 3] {
    let p = p as u64;
    let farthest = farthest::<GRID>(statics, p);
    if !statics.monitoring {
        return [farthest; 3];
    }
    let x_pr = BP_IN_HUNDREDTH * statics.x_pr as u64;
    let spread = Spread {
        lower: p * x_pr.saturating_sub(s_1 as u64),
        upper: p * (x_pr + s_1 as u64),
        divisor: x_pr * YEAR as u64 * GRID,
    };
    let monitored = if spread.upper <= NARROW_MOST {
        narrow::<GRID>(&spread, terms)
    } else {
        wide::<GRID>(&spread, terms)
    };
    monitored.map(|band| Band {
        lower: band.lower.max(farthest.lower),
        upper: band.upper.min(farthest.upper),
    })
}

/// P·(1 - PcL_max), up, and P·(1 + PcH_max), down: divisions by a constant.
#[inline(always)]
pub fn farthest<const GRID: u64>(statics: &Statics, p: u64) -> Band {
    let whole = ONE_IN_BP * GRID;
    let lower = p * (ONE_IN_BP - statics.pcl_max as u64);
    let upper = p * (ONE_IN_BP + statics.pch_max as u64);
    Band {
        lower: ((lower + whole - 1) / whole * GRID) as i64,
        upper: (upper / whole * GRID) as i64,
    }
}

/// P·(x_pr ± S_1), at most 1.1·10^15, and what makes a limit in grids of it with a term's growth in days.
struct Spread {
    lower: u64,
    upper: u64,
    divisor: u64,
}

/// 3,650,000 + RR·k.
#[inline(always)]
pub fn growth(repo_rate: i64, days: i64) -> u64 {
    (YEAR + repo_rate * days) as u64
}

/// The six monitored limits have one divisor, so one division.
#[inline(always)]
fn narrow<const GRID: u64>(spread: &Spread, terms: &[RepoTerm; 3]) -> [Band; 3] {
    let divisor = Divisor::new(spread.divisor);
    terms.map(|term| Band {
        lower: (divisor.up(spread.lower * growth(term.rrcl, term.days)) * GRID) as i64,
        upper: (divisor.down(spread.upper * growth(term.rrch, term.days)) * GRID) as i64,
    })
}

/// The same where the products do not fit 64 bits.
#[cold]
#[inline(never)]
fn wide<const GRID: u64>(spread: &Spread, terms: &[RepoTerm; 3]) -> [Band; 3] {
    terms.map(|term| Band {
        lower: (up_wide(spread.lower, growth(term.rrcl, term.days), spread.divisor) * GRID) as i64,
        upper: (down_wide(spread.upper, growth(term.rrch, term.days), spread.divisor) * GRID)
            as i64,
    })
}

/// x·growth/by, down. The quotient is at most 4·10^10 in an evaluation and 2.3·10^12 behind 50 moves, and the float has
/// five roundings at most. So it is within a hundredth of the quotient: the guess is that, rounded down, or one more.
#[inline(always)]
pub fn down_wide(x: u64, growth: u64, by: u64) -> u64 {
    let guess = (x as f64 * growth as f64 / by as f64 + 0.5) as u64;
    let product = u128::from(x) * u128::from(growth);
    guess - u64::from(u128::from(guess) * u128::from(by) > product)
}

/// x·growth/by, up: the guess is the quotient, rounded up, or one less.
#[inline(always)]
pub fn up_wide(x: u64, growth: u64, by: u64) -> u64 {
    let guess = (x as f64 * growth as f64 / by as f64 + 0.5) as u64;
    let product = u128::from(x) * u128::from(growth);
    guess + u64::from(u128::from(guess) * u128::from(by) < product)
}
