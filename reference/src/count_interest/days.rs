//! The edges of an evaluation that takes worked pairs.

use crate::interest::{Pair, RepoBand};
use crate::kept::Kept;
use crate::record::is_repo_term;
use crate::refusal::Refusal;
use crate::tally::Edge;
use crate::units::REPO_RATE;

/// An evaluation with worked pairs, and what was kept before it.
pub struct SeenDay<'s> {
    pub pairs: Vec<Pair>,
    pub kept: &'s Kept,
    pub refused_pairs: &'s [Pair],
    /// Whether the day is not after the security's last.
    pub is_late: bool,
    pub number: i64,
}

impl SeenDay<'_> {
    fn is_out_of_range(&self) -> bool {
        self.number == Refusal::ValueOutOfRange.number()
    }

    fn has_band(&self, is: impl Fn(&RepoBand) -> bool) -> bool {
        self.pairs
            .iter()
            .any(|pair| self.kept.band(*pair).map_or(false, |band| is(&band)))
    }

    /// How many of the kept bands are of a pair.
    fn times(&self, pair: &Pair) -> usize {
        self.kept.bands().filter(|(kept, _)| kept == pair).count()
    }

    fn is_newest(&self, pair: &Pair) -> bool {
        self.kept
            .bands()
            .next()
            .map_or(false, |(kept, _)| kept == *pair)
    }

    fn is_oldest_alone(&self, pair: &Pair) -> bool {
        let oldest = self.kept.bands().nth(2);
        oldest.map_or(false, |(kept, _)| kept == *pair) && self.times(pair) == 1
    }
}

pub fn edges<'s>() -> Vec<Edge<SeenDay<'s>>> {
    vec![
        ("evaluations with worked pairs", |_| true),
        ("accepted with one pair", |d| {
            d.number == 0 && d.pairs.len() == 1
        }),
        ("accepted with two pairs", |d| {
            d.number == 0 && d.pairs.len() == 2
        }),
        ("accepted with three pairs", |d| {
            d.number == 0 && d.pairs.len() == 3
        }),
        ("accepted with the newest band", |d| {
            d.number == 0 && d.pairs.iter().any(|pair| d.is_newest(pair))
        }),
        ("accepted with the oldest band", |d| {
            d.number == 0 && d.pairs.iter().any(|pair| d.is_oldest_alone(pair))
        }),
        ("accepted with a pair kept twice", |d| {
            d.number == 0 && d.pairs.iter().any(|pair| d.times(pair) > 1)
        }),
        ("6 with a pair not kept", |d| {
            d.is_out_of_range() && d.pairs.iter().any(|pair| d.times(pair) == 0)
        }),
        ("6 with a refused line's pair", |d| {
            let refused = |pair: &Pair| d.times(pair) == 0 && d.refused_pairs.contains(pair);
            d.is_out_of_range() && d.pairs.iter().any(refused)
        }),
        ("6 with a band outside 9,999", |d| {
            let outside = |band: &RepoBand| {
                !REPO_RATE.contains(&band.rrcl) || !REPO_RATE.contains(&band.rrch)
            };
            d.is_out_of_range() && d.has_band(outside)
        }),
        ("6 with a crossed band", |d| {
            let crossed =
                |band: &RepoBand| band.rrcl > band.rrch && is_repo_term(0, band.rrch, band.rrcl);
            d.is_out_of_range() && d.has_band(crossed)
        }),
        ("1 with a pair not kept", |d| {
            d.number == Refusal::NoSuchId.number() && d.pairs.iter().any(|pair| d.times(pair) == 0)
        }),
        ("6 with a pair not kept, before 5", |d| {
            d.is_late && d.is_out_of_range() && d.pairs.iter().any(|pair| d.times(pair) == 0)
        }),
        ("accepted with an upper limit of 9,999", |d| {
            d.number == 0 && d.has_band(|band| band.rrch == *REPO_RATE.end())
        }),
        ("6 with an upper limit of 10,000", |d| {
            d.is_out_of_range() && d.has_band(|band| band.rrch == *REPO_RATE.end() + 1)
        }),
        ("accepted with a lower limit of -9,999", |d| {
            d.number == 0 && d.has_band(|band| band.rrcl == *REPO_RATE.start())
        }),
        ("6 with a lower limit of -10,000", |d| {
            d.is_out_of_range() && d.has_band(|band| band.rrcl == *REPO_RATE.start() - 1)
        }),
        ("accepted with limits that touch", |d| {
            d.number == 0 && d.has_band(|band| band.rrcl == band.rrch)
        }),
        ("6 with limits crossed by one", |d| {
            d.is_out_of_range() && d.has_band(|band| band.rrcl == band.rrch + 1)
        }),
    ]
}
