//! Counts how often a script of the evening meets each edge of W-211: every
//! class of float at each place, what is kept before a call and after it, the
//! record's standing, and outside prices beside the book's in an evaluation.

mod days;
mod floats;

use std::collections::HashMap;
use std::io::{self, BufRead};

use crate::count::Count;
use crate::outside::{price_of, Outside, Quoted};
use crate::record::{Record, Session};
use crate::refusal::Refusal;
use crate::replay::{calls, Call};
use crate::static_ends::{StaticEnds, FLAG};
use crate::tally::{names, Edge, Tally};

pub use floats::{POWERS, POWERS_REFUSED};

/// The last static.
const USE_EXTERNAL: StaticEnds = StaticEnds::new("USEEXTERNAL", 25, FLAG);

fn is_priced(bits: i64) -> bool {
    price_of(bits).is_some()
}

/// A call of outside prices.
#[derive(Clone, Copy, Debug, PartialEq, Eq)]
enum Verb {
    Outside,
    Notice,
    Withdraw,
}

/// A call of outside prices, and what was kept before it.
struct SeenCall {
    verb: Verb,
    number: i64,
    before: Option<Record>,
    after: Option<Record>,
    /// The side that a notice names; none where it is no side.
    side: Option<Quoted>,
    /// The bits of its floats.
    floats: Vec<i64>,
}

impl SeenCall {
    /// None where the call is another.
    fn of(call: &Call) -> Option<SeenCall> {
        let numbers = call.numbers();
        let (verb, side, floats) = match (call.verb, &numbers[..]) {
            (b"outside", &[_, bid, ask]) => (Verb::Outside, None, vec![bid, ask]),
            (b"notice", &[_, side, bits]) => (Verb::Notice, Quoted::from_number(side), vec![bits]),
            (b"withdraw", &[_]) => (Verb::Withdraw, None, Vec::new()),
            _ => return None,
        };
        Some(SeenCall {
            verb,
            number: call.answer.number(),
            before: call.before,
            after: call.after,
            side,
            floats,
        })
    }

    fn is(&self, refusal: Refusal) -> bool {
        self.number == refusal.number()
    }

    fn is_done(&self) -> bool {
        self.number == 0
    }

    /// The floats on which the answer hangs, with their sides: of a known id, and
    /// of a pair only where the other float has a price.
    fn deciding_floats(&self) -> Vec<(Quoted, i64)> {
        if self.before.is_none() {
            return Vec::new();
        }
        match (self.verb, self.side, &self.floats[..]) {
            (Verb::Outside, _, &[bid, ask]) => [(Quoted::Bid, bid, ask), (Quoted::Ask, ask, bid)]
                .into_iter()
                .filter(|(_, _, other)| is_priced(*other))
                .map(|(side, bits, _)| (side, bits))
                .collect(),
            (Verb::Notice, Some(side), &[bits]) => vec![(side, bits)],
            _ => Vec::new(),
        }
    }

    /// Which sides are kept before it.
    fn kept(&self) -> Option<[bool; 2]> {
        let outside = self.before?.outside;
        Some(Quoted::BOTH.map(|side| side.of(outside) != 0))
    }

    fn keeps(&self, verb: Verb, kept: [bool; 2]) -> bool {
        self.verb == verb && self.kept() == Some(kept)
    }

    /// An accepted call where these sides are kept.
    fn is_done_over(&self, verb: Verb, kept: [bool; 2]) -> bool {
        self.is_done() && self.keeps(verb, kept)
    }

    /// A notice of a side, where these are kept.
    fn is_notice(&self, side: Quoted, kept: [bool; 2]) -> bool {
        self.side == Some(side) && self.keeps(Verb::Notice, kept)
    }

    /// A pair of which these sides have prices, refused where these are kept.
    fn is_bad_pair(&self, priced: [bool; 2], kept: [bool; 2]) -> bool {
        let floats: Vec<bool> = self.floats.iter().map(|bits| is_priced(*bits)).collect();
        self.is(Refusal::NoOutsidePrice) && self.keeps(Verb::Outside, kept) && floats == priced
    }

    fn has_bad_float(&self) -> bool {
        self.floats.iter().any(|bits| !is_priced(*bits))
    }

    /// A notice of no side, refused 6.
    fn is_no_side(&self, is_bad: bool) -> bool {
        self.is(Refusal::ValueOutOfRange) && self.has_bad_float() == is_bad
    }

    /// No such id, and nothing else is wrong or a float is.
    fn is_stranger(&self, verb: Verb, is_bad: bool) -> bool {
        let has_side = verb != Verb::Notice || self.side.is_some();
        self.is(Refusal::NoSuchId)
            && self.verb == verb
            && has_side
            && self.has_bad_float() == is_bad
    }

    /// The pair after an accepted call.
    fn pair(&self) -> Outside {
        let after = self.after.filter(|_| self.is_done());
        after.map_or(Outside::NONE, |record| record.outside)
    }
}

const NONE: [bool; 2] = [false, false];
const BID: [bool; 2] = [true, false];
const ASK: [bool; 2] = [false, true];
const BOTH: [bool; 2] = [true, true];

const CALLS: [Edge<SeenCall>; 41] = [
    ("a pair, nothing kept", |c| {
        c.is_done_over(Verb::Outside, NONE)
    }),
    ("a pair, a bid kept alone", |c| {
        c.is_done_over(Verb::Outside, BID)
    }),
    ("a pair, an ask kept alone", |c| {
        c.is_done_over(Verb::Outside, ASK)
    }),
    ("a pair, a pair kept", |c| {
        c.is_done_over(Verb::Outside, BOTH)
    }),
    ("20: a pair's bid alone, a pair kept", |c| {
        c.is_bad_pair(ASK, BOTH)
    }),
    ("20: a pair's ask alone, a pair kept", |c| {
        c.is_bad_pair(BID, BOTH)
    }),
    ("20: both of a pair, a pair kept", |c| {
        c.is_bad_pair(NONE, BOTH)
    }),
    ("20: a pair's bid alone, nothing kept", |c| {
        c.is_bad_pair(ASK, NONE)
    }),
    ("20: a pair's ask alone, nothing kept", |c| {
        c.is_bad_pair(BID, NONE)
    }),
    ("20: a pair's bid alone, a bid kept", |c| {
        c.is_bad_pair(ASK, BID)
    }),
    ("20: a pair's ask alone, an ask kept", |c| {
        c.is_bad_pair(BID, ASK)
    }),
    ("20: a pair's bid alone, an ask kept", |c| {
        c.is_bad_pair(ASK, ASK)
    }),
    ("20: a pair's ask alone, a bid kept", |c| {
        c.is_bad_pair(BID, BID)
    }),
    ("20: both of a pair, nothing kept", |c| {
        c.is_bad_pair(NONE, NONE)
    }),
    ("20: both of a pair, a bid kept", |c| {
        c.is_bad_pair(NONE, BID)
    }),
    ("20: both of a pair, an ask kept", |c| {
        c.is_bad_pair(NONE, ASK)
    }),
    ("a bid, nothing kept", |c| {
        c.is_done() && c.is_notice(Quoted::Bid, NONE)
    }),
    ("a bid, a bid kept alone", |c| {
        c.is_done() && c.is_notice(Quoted::Bid, BID)
    }),
    ("a bid, an ask kept alone", |c| {
        c.is_done() && c.is_notice(Quoted::Bid, ASK)
    }),
    ("a bid, a pair kept", |c| {
        c.is_done() && c.is_notice(Quoted::Bid, BOTH)
    }),
    ("an ask, nothing kept", |c| {
        c.is_done() && c.is_notice(Quoted::Ask, NONE)
    }),
    ("an ask, a bid kept alone", |c| {
        c.is_done() && c.is_notice(Quoted::Ask, BID)
    }),
    ("an ask, an ask kept alone", |c| {
        c.is_done() && c.is_notice(Quoted::Ask, ASK)
    }),
    ("an ask, a pair kept", |c| {
        c.is_done() && c.is_notice(Quoted::Ask, BOTH)
    }),
    ("20: a bid, a pair kept", |c| {
        c.is(Refusal::NoOutsidePrice) && c.is_notice(Quoted::Bid, BOTH)
    }),
    ("20: an ask, a pair kept", |c| {
        c.is(Refusal::NoOutsidePrice) && c.is_notice(Quoted::Ask, BOTH)
    }),
    ("6: no side", |c| c.is_no_side(false)),
    ("6 before 20", |c| c.is_no_side(true)),
    ("1: a pair", |c| c.is_stranger(Verb::Outside, false)),
    ("1 before 20: a pair", |c| {
        c.is_stranger(Verb::Outside, true)
    }),
    ("1: a notice", |c| c.is_stranger(Verb::Notice, false)),
    ("1 before 20: a notice", |c| {
        c.is_stranger(Verb::Notice, true)
    }),
    ("1 before 6: a notice", |c| {
        c.is(Refusal::NoSuchId) && c.verb == Verb::Notice && c.side.is_none()
    }),
    ("1: a withdrawal", |c| c.is_stranger(Verb::Withdraw, false)),
    ("withdrawn, nothing kept", |c| {
        c.is_done_over(Verb::Withdraw, NONE)
    }),
    ("withdrawn, a bid kept alone", |c| {
        c.is_done_over(Verb::Withdraw, BID)
    }),
    ("withdrawn, an ask kept alone", |c| {
        c.is_done_over(Verb::Withdraw, ASK)
    }),
    ("withdrawn, a pair kept", |c| {
        c.is_done_over(Verb::Withdraw, BOTH)
    }),
    ("kept: a bid below the ask", |c| {
        let Outside { bid, ask } = c.pair();
        bid > 0 && bid < ask
    }),
    ("kept: a bid equal to the ask", |c| {
        let Outside { bid, ask } = c.pair();
        bid > 0 && bid == ask
    }),
    ("kept: a bid above the ask", |c| {
        let Outside { bid, ask } = c.pair();
        ask > 0 && bid > ask
    }),
];

/// The record's standing at an accepted call.
const STANDINGS: [Edge<Record>; 5] = [
    ("before the first evaluation", |r| !r.is_live()),
    ("in the main session", |r| {
        r.is_live() && r.session == Session::Main
    }),
    ("in the evening", |r| r.session != Session::Main),
    ("with Monitoring no", |r| !r.statics.monitoring),
    ("with UseEXTERNAL no", |r| !r.statics.use_external),
];

/// The accepted calls of which a standing is asked.
const ACCEPTED: [Edge<SeenCall>; 4] = [
    ("a pair", |c| c.verb == Verb::Outside),
    ("a bid", |c| c.side == Some(Quoted::Bid)),
    ("an ask", |c| c.side == Some(Quoted::Ask)),
    ("a withdrawal", |c| c.verb == Verb::Withdraw),
];

fn standing_edge(call: &str, standing: &str) -> String {
    format!("{call} {standing}")
}

fn standing_edges() -> impl Iterator<Item = String> {
    ACCEPTED.into_iter().flat_map(|(call, _)| {
        STANDINGS
            .into_iter()
            .map(move |(standing, _)| standing_edge(call, standing))
    })
}

fn look_at_standing(tally: &mut Tally, call: &SeenCall) {
    let before = match call.before.filter(|_| call.is_done()) {
        Some(before) => before,
        None => return,
    };
    for (name, is_call) in ACCEPTED {
        for (standing, is_met) in STANDINGS {
            if is_call(call) && is_met(&before) {
                tally.meet(&standing_edge(name, standing));
            }
        }
    }
}

/// The calls that leave a pair, by their words; a refused evaluation too.
const LEAVING: [(&str, &[u8], bool); 6] = [
    ("an evaluation leaves a pair", b"evaluate", true),
    ("a refused evaluation leaves a pair", b"evaluate", false),
    ("a quote leaves a pair", b"quote", true),
    ("a move leaves a pair", b"move", true),
    ("an opening leaves a pair", b"open", true),
    ("a read shows a pair", b"read", true),
];

fn look_at_leaving(tally: &mut Tally, call: &Call) {
    let has_pair = |record: Record| record.outside.bid > 0 && record.outside.ask > 0;
    for (name, verb, is_done) in LEAVING {
        let is_so = (call.answer.number() == 0) == is_done;
        if call.verb == verb && is_so && call.before.map_or(false, has_pair) {
            tally.meet(name);
        }
    }
}

/// Counts the edges that a script meets.
pub fn count_outside(input: impl BufRead) -> io::Result<Count> {
    let edges = floats::edges()
        .chain(names(CALLS.to_vec()))
        .chain(standing_edges())
        .chain(LEAVING.into_iter().map(|(name, _, _)| name.to_string()))
        .chain(days::edges())
        .chain(USE_EXTERNAL.edges());
    let mut tally = Tally::new(edges);
    let mut pasts: HashMap<i64, days::Past> = HashMap::new();
    calls(input, |call| {
        let past = pasts.entry(call.numbers()[0]).or_default();
        if let Some(seen) = SeenCall::of(call) {
            floats::look(&mut tally, &seen);
            tally.look(&CALLS, &seen);
            look_at_standing(&mut tally, &seen);
            if seen.is_done() {
                past.is_taken = false;
            }
        }
        look_at_leaving(&mut tally, call);
        days::look(&mut tally, call, past);
        USE_EXTERNAL.look(&mut tally, call);
    })?;
    Ok(tally.count())
}
