//! The ends of a static's range, as edges that admissions meet.

use crate::protocol::admission;
use crate::replay::Call;
use crate::security::admitted;
use crate::tally::Tally;
use crate::units::Range;

/// The range of a static that is yes or no.
pub const FLAG: Range = 0..=1;

const AT_LEAST: &str = "at its least";
const AT_MOST: &str = "at its most";
const ONE_BELOW: &str = "4: one below";
const ONE_ABOVE: &str = "4: one above";

/// A static: its name, its place among an admission's and its range.
pub struct StaticEnds {
    name: &'static str,
    place: usize,
    range: Range,
}

impl StaticEnds {
    pub const fn new(name: &'static str, place: usize, range: Range) -> StaticEnds {
        StaticEnds { name, place, range }
    }

    fn edge(&self, end: &str) -> String {
        format!("{} {end}", self.name)
    }

    /// The edges of the static's ends.
    pub fn edges(&self) -> [String; 4] {
        [AT_LEAST, AT_MOST, ONE_BELOW, ONE_ABOVE].map(|end| self.edge(end))
    }

    /// Meets the ends that an admission stands at: accepted there, or refused for
    /// this static alone just past them.
    pub fn look(&self, tally: &mut Tally, call: &Call) {
        let given = match (call.verb, admission(&call.numbers())) {
            (b"admit", Some(given)) => given,
            _ => return,
        };
        let number = call.answer.number();
        let (least, most) = (*self.range.start(), *self.range.end());
        let value = given.statics[self.place];
        let mut mended = given;
        mended.statics[self.place] = least;
        let is_alone = number == 4 && admitted(&mended).is_some();
        for (end, is_met) in [
            (AT_LEAST, number == 0 && value == least),
            (AT_MOST, number == 0 && value == most),
            (ONE_BELOW, is_alone && value == least - 1),
            (ONE_ABOVE, is_alone && value == most + 1),
        ] {
            if is_met {
                tally.meet(&self.edge(end));
            }
        }
    }
}
