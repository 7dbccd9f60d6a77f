//! A security's statics and their ranges (document 01, "Units and ranges"; the
//! evening's three are W-210's, the last one is W-211's).

use crate::ewma::Model;
use crate::units::{Range, EVENING_MOVES, RATE, TARGET_MAX};

/// How many statics there are.
pub const STATICS: usize = 26;

pub const LOT: Range = 1..=100;
pub const STEP: Range = 1..=1_000;
pub const MULTIPLIER: Range = 100..=1_000;
pub const WEIGHT: Range = 0..=10_000;
pub const WAIT: Range = 1..=250;
pub const HORIZON_1: Range = 1..=5;
pub const HORIZON: Range = 1..=30;
pub const LIQ: Range = 0..=500;
pub const X_PR: Range = 50..=1_000;
pub const SHIFT: Range = 1..=100;
pub const BAND_MAXIMUM: Range = 0..=10_000;
pub const NEARNESS: Range = 0..=5_000;
/// u, and u of the evening (W-210).
pub const NEAR_SECONDS: Range = 1..=3_600;

/// Grid (10.1): for each greatest lot, the units of its price step.
const GRIDS: [(i64, i64); 3] = [(1, 100), (10, 10), (100, 1)];

/// The statics of a security, in the order of the paper's table, the evening's
/// and UseEXTERNAL behind them.
#[derive(Clone, Copy, Debug, PartialEq, Eq)]
pub struct Statics {
    pub lot: i64,
    /// The step h, in basis points.
    pub step: i64,
    /// The multiplier q, in hundredths.
    pub multiplier: i64,
    pub a_up: i64,
    pub a_down: i64,
    /// The wait n, in trading days.
    pub wait: i64,
    /// rh_1, rh_2, rh_3, in days.
    pub horizons: [i64; 3],
    pub liq: i64,
    /// S_1_min, S_2_min, S_3_min, in basis points.
    pub minima: [i64; 3],
    pub s_max: i64,
    pub x_pr: i64,
    pub shift: i64,
    pub pch_max: i64,
    pub pcl_max: i64,
    /// w, in ten-thousandths.
    pub nearness: i64,
    /// u, in seconds.
    pub near_seconds: i64,
    pub monitoring: bool,
    pub is_ewma: bool,
    /// u of the evening, in seconds (17.5).
    pub evening_seconds: i64,
    /// Whether the evening has moves (17.4).
    pub autochange: bool,
    /// The most moves of an evening (17.4).
    pub evening_maximum: i64,
    /// UseEXTERNAL: whether an evaluation takes outside prices (6.1).
    pub use_external: bool,
}

impl Statics {
    /// The statics of an empty slot.
    pub const EMPTY: Statics = Statics {
        lot: 0,
        step: 0,
        multiplier: 0,
        a_up: 0,
        a_down: 0,
        wait: 0,
        horizons: [0; 3],
        liq: 0,
        minima: [0; 3],
        s_max: 0,
        x_pr: 0,
        shift: 0,
        pch_max: 0,
        pcl_max: 0,
        nearness: 0,
        near_seconds: 0,
        monitoring: false,
        is_ewma: false,
        evening_seconds: 0,
        autochange: false,
        evening_maximum: 0,
        use_external: false,
    };

    /// The statics given by plain numbers, flags 1 for yes and 0 for no;
    /// none where one is out of its range.
    pub fn from_numbers(numbers: &[i64; STATICS]) -> Option<Statics> {
        let n = numbers;
        let statics = Statics {
            lot: n[0],
            step: n[1],
            multiplier: n[2],
            a_up: n[3],
            a_down: n[4],
            wait: n[5],
            horizons: [n[6], n[7], n[8]],
            liq: n[9],
            minima: [n[10], n[11], n[12]],
            s_max: n[13],
            x_pr: n[14],
            shift: n[15],
            pch_max: n[16],
            pcl_max: n[17],
            nearness: n[18],
            near_seconds: n[19],
            monitoring: flag(n[20])?,
            is_ewma: flag(n[21])?,
            evening_seconds: n[22],
            autochange: flag(n[23])?,
            evening_maximum: n[24],
            use_external: flag(n[25])?,
        };
        statics.is_sound().then_some(statics)
    }

    /// The statics as plain numbers.
    pub fn numbers(&self) -> [i64; STATICS] {
        [
            self.lot,
            self.step,
            self.multiplier,
            self.a_up,
            self.a_down,
            self.wait,
            self.horizons[0],
            self.horizons[1],
            self.horizons[2],
            self.liq,
            self.minima[0],
            self.minima[1],
            self.minima[2],
            self.s_max,
            self.x_pr,
            self.shift,
            self.pch_max,
            self.pcl_max,
            self.nearness,
            self.near_seconds,
            i64::from(self.monitoring),
            i64::from(self.is_ewma),
            self.evening_seconds,
            i64::from(self.autochange),
            self.evening_maximum,
            i64::from(self.use_external),
        ]
    }

    /// Whether every static is in its range, order and multiple.
    pub fn is_sound(&self) -> bool {
        LOT.contains(&self.lot)
            && STEP.contains(&self.step)
            && MULTIPLIER.contains(&self.multiplier)
            && WEIGHT.contains(&self.a_up)
            && WEIGHT.contains(&self.a_down)
            && WAIT.contains(&self.wait)
            && self.horizons_are_sound()
            && LIQ.contains(&self.liq)
            && self.rates_are_sound()
            && X_PR.contains(&self.x_pr)
            && SHIFT.contains(&self.shift)
            && BAND_MAXIMUM.contains(&self.pch_max)
            && BAND_MAXIMUM.contains(&self.pcl_max)
            && NEARNESS.contains(&self.nearness)
            && NEAR_SECONDS.contains(&self.near_seconds)
            && NEAR_SECONDS.contains(&self.evening_seconds)
            && EVENING_MOVES.contains(&self.evening_maximum)
    }

    /// rh_1 ≤ rh_2 ≤ rh_3, rh_1 in 1..5, the others to 30.
    fn horizons_are_sound(&self) -> bool {
        let [first, second, third] = self.horizons;
        HORIZON_1.contains(&first)
            && HORIZON.contains(&second)
            && HORIZON.contains(&third)
            && first <= second
            && second <= third
    }

    /// S_1_min ≤ S_2_min ≤ S_3_min ≤ S_max, all multiples of h.
    fn rates_are_sound(&self) -> bool {
        let [first, second, third] = self.minima;
        let rates = [first, second, third, self.s_max];
        rates.windows(2).all(|two| two[0] <= two[1])
            && rates
                .iter()
                .all(|rate| RATE.contains(rate) && self.is_multiple_of_step(*rate))
    }

    /// The statics of the volatility model.
    pub fn model(&self) -> Model {
        Model {
            a_up: self.a_up,
            a_down: self.a_down,
            multiplier: self.multiplier,
            step: self.step,
            wait: self.wait,
        }
    }

    /// The greatest tentative rate (W-208): the least multiple of h at or above
    /// 100,000.
    pub fn tentative_max(&self) -> i64 {
        let steps = (TARGET_MAX + self.step - 1) / self.step;
        steps * self.step
    }

    /// Whether a rate is a multiple of h.
    pub fn is_multiple_of_step(&self, rate: i64) -> bool {
        rate % self.step == 0
    }

    /// Grid (10.1): ceiling(log10 lot) + 2 decimals of a rouble, in units.
    pub fn grid(&self) -> i64 {
        let [(one, coarse), (ten, middle), (_, fine)] = GRIDS;
        if self.lot <= one {
            coarse
        } else if self.lot <= ten {
            middle
        } else {
            fine
        }
    }

    /// Whether a price or limit stands on the grid.
    pub fn is_on_grid(&self, price: i64) -> bool {
        price % self.grid() == 0
    }
}

/// A flag given as a number: 1 yes, 0 no, anything else is out of range.
fn flag(number: i64) -> Option<bool> {
    match number {
        0 => Some(false),
        1 => Some(true),
        _ => None,
    }
}
