//! The author's turns of sessions: openings, and securities whose main session
//! and evening are made for their edges (W-210).

use crate::record::Record;
use crate::script::session::{self, Plan};
use crate::script::{day, quote};

use super::Author;

/// Sides of a move: both, and one past them.
const SIDES: [i64; 3] = [0, 1, 2];

impl Author {
    /// Opens the evening of a record, live mostly.
    pub(super) fn open(&mut self) {
        let id = self.live_record().id;
        self.say("open", &[id]);
        if self.random.chance(15) {
            self.say("open", &[id]);
        }
    }

    /// A security of each plan, or of each with its sides turned round.
    pub(super) fn every_plan(&mut self) {
        let is_turned = self.random.chance(50);
        for (turn, plan) in session::plans().into_iter().enumerate() {
            let plan = if is_turned { plan.turned() } else { plan };
            self.sessions(&plan, turn);
        }
    }

    /// A security of a plan, a refused admission of it before: a day with its
    /// main session and its evening, then a second day, a main move and an
    /// evening without moves.
    fn sessions(&mut self, plan: &Plan, turn: usize) {
        let id = self.new_id();
        let admission = plan.admission(&mut self.random, id);
        self.say("admit", &session::refused(&admission, turn));
        self.say("admit", &admission);
        self.say("open", &[id]);
        self.say("evaluate", &day::bare(id, 1));
        let start = self.random.between(1, 40_000);
        self.alerts_beside_both(id, start);
        for (side, moves) in (0..).zip(plan.main) {
            (0..moves).for_each(|_| self.say("move", &[id, side]));
        }
        self.opening(id);
        self.evening_moves(id, plan);
        self.say("open", &[id]);
        self.say("evaluate", &day::bare(id, 1));
        self.say("read", &[id]);
        self.say("evaluate", &day::bare(id, 2));
        self.say("move", &[id, 0]);
        self.say("open", &[id]);
        self.say("evaluate", &day::bare(id, 3));
    }

    /// The record of an id that is admitted.
    fn of(&self, id: i64) -> Record {
        let is_it = |record: &&Record| record.id == id;
        self.table
            .iter()
            .find(is_it)
            .copied()
            .unwrap_or(Record::EMPTY)
    }

    /// A quote of the first terms, both sides near.
    fn near_quote(&mut self, id: i64, second: i64, terms: usize) {
        let record = self.of(id);
        for term in 0..terms {
            let bid = quote::near_bid(&record, term);
            let ask = quote::near_ask(&record, term);
            self.say("quote", &[id, second, term as i64, bid, ask]);
        }
    }

    /// Near quotes at u and at u of the evening after the first, and one second
    /// short of each.
    fn alerts_beside_both(&mut self, id: i64, start: i64) {
        let statics = self.of(id).statics;
        let waits = [statics.near_seconds, statics.evening_seconds];
        let mut after = vec![0];
        after.extend(waits.iter().flat_map(|wait| [wait - 1, *wait]));
        after.sort_unstable();
        for after in after {
            self.near_quote(id, start + after, 1);
        }
    }

    /// Two terms become near, and the evening is opened: their near seconds are
    /// gone, though the last quote second stays.
    fn opening(&mut self, id: i64) {
        let record = self.of(id);
        let second = record.last_second + 1;
        self.near_quote(id, second, 2);
        self.say("open", &[id]);
        self.say("open", &[id]);
        self.say("quote", &[id, second - 1, 2, 0, 0]);
        self.say("quote", &[id, second, 2, 0, 0]);
        let statics = record.statics;
        let wait = statics.near_seconds.max(statics.evening_seconds);
        self.alerts_beside_both(id, second + wait);
    }

    /// The evening's moves, two more than it has, then of each side, and of none.
    fn evening_moves(&mut self, id: i64, plan: &Plan) {
        for turn in 0..plan.maximum + 2 {
            self.say("move", &[id, plan.sides.side(turn)]);
        }
        SIDES.iter().for_each(|side| self.say("move", &[id, *side]));
    }
}
