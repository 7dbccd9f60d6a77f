//! Counts how often a script of the evening meets each edge of W-208: t beside
//! S_max, a tentative rate above it that falls by its steps, and the top of its
//! range.

use std::io::{self, BufRead};

use crate::count::Count;
use crate::ewma::{self, Chosen, Volatility};
use crate::rates::Turn;
use crate::record::Record;
use crate::replay::{admissions, evaluations, Evaluation};
use crate::security::{admitted, Admission};
use crate::tally::{names, Edge, Tally};
use crate::units::TARGET_MAX;
use crate::why::turn_of;

/// An accepted evaluation with isEWMA yes.
struct SeenTurn {
    before: Record,
    after: Record,
    turn: Turn,
}

impl SeenTurn {
    fn of(seen: &Evaluation) -> Option<SeenTurn> {
        let (before, after) = (seen.before?, seen.after?);
        if seen.number != 0 || !before.statics.is_ewma {
            return None;
        }
        Some(SeenTurn {
            turn: turn_of(&before, &seen.asked.day(), after.p1),
            before,
            after,
        })
    }

    fn step(&self) -> i64 {
        self.before.statics.step
    }

    fn s_max(&self) -> i64 {
        self.before.statics.s_max
    }

    fn is_weighed(&self) -> bool {
        matches!(self.turn.chosen, Chosen::Weighed(_))
    }

    /// How many steps t stands above S_max.
    fn past_maximum(&self) -> i64 {
        (self.turn.t - self.s_max()) / self.step()
    }

    /// How many steps the old tentative rate stands above S_max.
    fn was_past(&self) -> i64 {
        (self.before.tentative - self.s_max()) / self.step()
    }

    /// How many steps the tentative rate rose.
    fn rise(&self) -> i64 {
        (self.after.tentative - self.before.tentative) / self.step()
    }

    /// What the tentative rate and its age would be if S_max held t.
    fn capped(&self) -> Volatility {
        let model = self.before.statics.model();
        let t = self.turn.t.min(self.s_max());
        ewma::stepped(&model, self.after.s, t, &self.before.volatility())
    }

    fn is_told_apart(&self) -> bool {
        self.capped() != self.after.volatility()
    }

    /// Falls by a step to the top of the range less a step.
    fn is_below_top(&self, step: i64) -> bool {
        let top = self.before.statics.tentative_max();
        self.step() == step && self.before.tentative == top && self.rise() == -1
    }

    fn is_at_top(&self, step: i64) -> bool {
        let top = self.before.statics.tentative_max();
        self.step() == step && self.after.tentative == top && self.rise() > 0
    }
}

/// An admission, accepted or not.
struct SeenAdmission {
    given: Admission,
    number: i64,
}

impl SeenAdmission {
    fn step(&self) -> i64 {
        self.given.statics[1]
    }

    fn s_max(&self) -> i64 {
        self.given.statics[13]
    }

    /// The greatest tentative rate of that step.
    fn top(step: i64) -> i64 {
        (TARGET_MAX + step - 1) / step * step
    }

    /// Whether the tentative rate alone is out of range.
    fn is_alone(&self) -> bool {
        let other = Admission {
            tentative: 0,
            ..self.given
        };
        self.number == 4 && admitted(&other).is_some()
    }

    fn is_at_top(&self, step: i64) -> bool {
        self.number == 0 && self.step() == step && self.given.tentative == Self::top(step)
    }

    fn is_past_top(&self, step: i64) -> bool {
        let past = Self::top(step) + step;
        self.is_alone() && self.step() == step && self.given.tentative == past
    }
}

fn turn_edges() -> Vec<Edge<SeenTurn>> {
    vec![
        ("t a step below S_max", |t| {
            t.is_weighed() && t.past_maximum() == -1
        }),
        ("t at S_max", |t| t.is_weighed() && t.past_maximum() == 0),
        ("t a step above S_max", |t| {
            t.is_weighed() && t.past_maximum() == 1
        }),
        ("the cap would tell", |t| {
            t.is_weighed() && t.is_told_apart()
        }),
        ("replaced, and the cap would tell", |t| {
            !t.is_weighed() && t.is_told_apart()
        }),
        ("rises from below S_max to above it", |t| {
            t.was_past() < 0 && t.past_maximum() > 0
        }),
        ("rises from S_max by a step", |t| {
            t.was_past() == 0 && t.rise() == 1
        }),
        ("rises from above S_max", |t| {
            t.was_past() > 0 && t.rise() > 0
        }),
        ("stays above S_max where the cap would let it fall", |t| {
            t.was_past() > 0 && t.rise() == 0 && t.capped().tentative < t.before.tentative
        }),
        ("waits above S_max", |t| {
            t.was_past() > 0 && t.turn.t < t.before.tentative && t.rise() == 0
        }),
        ("falls by a step and stays above S_max", |t| {
            t.was_past() > 1 && t.rise() == -1
        }),
        ("falls by a step on the evening after a change", |t| {
            t.was_past() > 1 && t.rise() == -1 && t.before.age == 0
        }),
        ("falls from above S_max to it", |t| {
            t.was_past() == 1 && t.rise() == -1
        }),
        ("falls from S_max", |t| t.was_past() == 0 && t.rise() == -1),
        ("every rate at S_max, the tentative rate above it", |t| {
            t.after.tentative > t.s_max() && t.after.rates == [t.s_max(); 3] && t.s_max() > 0
        }),
        ("S_1 leaves S_max as the tentative rate falls", |t| {
            let s_max = t.s_max();
            t.before.rates[0] == s_max && t.after.rates[0] < s_max && t.rise() == -1
        }),
        ("S_1 stays at S_max as the tentative rate falls", |t| {
            let s_max = t.s_max();
            t.before.rates[0] == s_max && t.after.rates[0] == s_max && t.rise() == -1
        }),
        ("rises to the top, h 1", |t| t.is_at_top(1)),
        ("rises to the top, h 7", |t| t.is_at_top(7)),
        ("rises to the top, h 999", |t| t.is_at_top(999)),
        ("rises to the top, h 1,000", |t| t.is_at_top(1_000)),
        ("falls from the top, h 1", |t| t.is_below_top(1)),
        ("falls from the top, h 7", |t| t.is_below_top(7)),
        ("falls from the top, h 999", |t| t.is_below_top(999)),
        ("falls from the top, h 1,000", |t| t.is_below_top(1_000)),
    ]
}

fn admission_edges() -> Vec<Edge<SeenAdmission>> {
    vec![
        ("admitted a step above S_max", |a| {
            a.number == 0 && a.given.tentative == a.s_max() + a.step()
        }),
        ("4: above S_max and no multiple of h", |a| {
            a.is_alone() && a.given.tentative > a.s_max() && a.given.tentative < TARGET_MAX
        }),
        ("4: 100,000, h 7", |a| {
            a.is_alone() && a.step() == 7 && a.given.tentative == TARGET_MAX
        }),
        ("admitted at the top, h 1", |a| a.is_at_top(1)),
        ("admitted at the top, h 7", |a| a.is_at_top(7)),
        ("admitted at the top, h 999", |a| a.is_at_top(999)),
        ("admitted at the top, h 1,000", |a| a.is_at_top(1_000)),
        ("4: a step past the top, h 1", |a| a.is_past_top(1)),
        ("4: a step past the top, h 7", |a| a.is_past_top(7)),
        ("4: a step past the top, h 999", |a| a.is_past_top(999)),
        ("4: a step past the top, h 1,000", |a| a.is_past_top(1_000)),
    ]
}

/// Counts the edges that a script meets.
pub fn count_tentative(mut input: impl BufRead) -> io::Result<Count> {
    let mut script = Vec::new();
    input.read_to_end(&mut script)?;
    let (turns, given) = (turn_edges(), admission_edges());
    let mut tally = Tally::new(names(turn_edges()).chain(names(admission_edges())));
    evaluations(&script[..], |seen| {
        if let Some(seen) = SeenTurn::of(seen) {
            tally.look(&turns, &seen);
        }
    })?;
    admissions(&script[..], |admission, number| {
        let seen = SeenAdmission {
            given: *admission,
            number,
        };
        tally.look(&given, &seen);
    })?;
    Ok(tally.count())
}
