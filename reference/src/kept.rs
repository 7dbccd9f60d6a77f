//! The worked bands that an evaluation may take (W-201).

use crate::interest::{Pair, RepoBand};

/// How many worked bands are kept.
const KEPT: usize = 3;

/// The bands of the latest accepted sheets, which an evaluation may take.
#[derive(Clone, Debug, Default)]
pub struct Kept {
    /// The newest first.
    bands: [Option<(Pair, RepoBand)>; KEPT],
}

impl Kept {
    /// Keeps a band in place of the oldest.
    pub fn keep(&mut self, pair: Pair, band: RepoBand) {
        self.bands.rotate_right(1);
        self.bands[0] = Some((pair, band));
    }

    /// What is kept, the newest first.
    pub fn bands(&self) -> impl Iterator<Item = (Pair, RepoBand)> + '_ {
        self.bands.iter().copied().flatten()
    }

    /// The newest band of a pair.
    pub fn band(&self, pair: Pair) -> Option<RepoBand> {
        self.bands()
            .find(|(kept, _)| *kept == pair)
            .map(|(_, band)| band)
    }
}
