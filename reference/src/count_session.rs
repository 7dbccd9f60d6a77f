//! Counts how often a script of the evening meets each edge of W-210: openings,
//! the moves that an evening has, fifty moves over both sessions, and alerts
//! beside u and u of the evening.

use std::collections::HashMap;
use std::io::{self, BufRead};

use crate::count::Count;
use crate::record::{Record, Session, Side, Term};
use crate::refusal::Refusal;
use crate::replay::{calls, Call};
use crate::static_ends::{StaticEnds, FLAG};
use crate::statics::{Statics, NEAR_SECONDS};
use crate::tally::{names, Edge, Tally};
use crate::units::{EVENING_MOVES, MOVE_COUNT};

/// What came before a call about an id.
#[derive(Clone, Copy, Default)]
struct Past {
    /// The record right before its latest opening.
    main: Option<Record>,
    /// Its accepted openings.
    openings: u64,
}

/// An opening, an evaluation or a move, and what came before it.
struct Seen {
    number: i64,
    before: Option<Record>,
    past: Past,
    /// The side that a move names.
    side: Option<Side>,
}

fn moves_of(record: &Record, side: Side) -> i64 {
    match side {
        Side::Upper => record.moves_upper,
        Side::Lower => record.moves_lower,
    }
}

fn other(side: Side) -> Side {
    match side {
        Side::Upper => Side::Lower,
        Side::Lower => Side::Upper,
    }
}

impl Seen {
    fn of(call: &Call, past: Past) -> Seen {
        Seen {
            number: call.answer.number(),
            before: call.before,
            past,
            side: call.numbers().get(1).copied().and_then(Side::from_number),
        }
    }

    fn is(&self, refusal: Refusal) -> bool {
        self.number == refusal.number()
    }

    fn is_done(&self) -> bool {
        self.number == 0
    }

    fn is_with(&self, holds: impl Fn(&Record) -> bool) -> bool {
        self.before.as_ref().map_or(false, holds)
    }

    fn statics(&self, holds: impl Fn(&Statics) -> bool) -> bool {
        self.is_with(|record| holds(&record.statics))
    }

    /// The moves made in the evening that the call is in.
    fn evening(&self) -> Option<i64> {
        match self.before?.session {
            Session::Main => None,
            Session::Evening(moves) => Some(moves),
        }
    }

    /// In an evening with Autochange yes and that maximum.
    fn has_maximum(&self, maximum: i64) -> bool {
        let is_so = |s: &Statics| s.autochange && s.evening_maximum == maximum;
        self.evening().is_some() && self.statics(is_so)
    }

    /// The moves that a side made in the main session and in the evening.
    fn moves(&self, side: Side) -> Option<(i64, i64)> {
        let (main, now) = (self.past.main?, self.before?);
        self.evening()?;
        let before = moves_of(&main, side);
        Some((before, moves_of(&now, side) - before))
    }

    /// The moves that the move's own side made, by session.
    fn own_moves(&self) -> Option<(i64, i64)> {
        self.moves(self.side?)
    }

    /// Whether both sessions have moves of the move's own side, so many together.
    fn is_over_both(&self, count: i64) -> bool {
        let is_so = |(main, evening)| main > 0 && evening > 0 && main + evening == count;
        self.own_moves().map_or(false, is_so)
    }

    /// Refused 18 with the maximum reached, by upper and lower moves of which so
    /// much holds.
    fn is_used_up(&self, maximum: i64, holds: impl Fn(i64, i64) -> bool) -> bool {
        let (upper, lower) = (self.moves(Side::Upper), self.moves(Side::Lower));
        self.is(Refusal::NoEveningMove)
            && self.has_maximum(maximum)
            && matches!((upper, lower), (Some((_, upper)), Some((_, lower))) if holds(upper, lower))
    }

    /// In an evening that has no move, or none left.
    fn has_no_move_left(&self) -> bool {
        let made = self.evening();
        self.statics(|s| made.map_or(false, |made| !s.autochange || made >= s.evening_maximum))
    }
}

/// How many terms are near on a side.
fn near(record: &Record, side: Side) -> usize {
    let is_near = |term: &&Term| match side {
        Side::Upper => term.near_top.is_some(),
        Side::Lower => term.near_bottom.is_some(),
    };
    record.terms.iter().filter(is_near).count()
}

const OPENINGS: [Edge<Seen>; 18] = [
    ("1: opened, no such id", |o| o.is(Refusal::NoSuchId)),
    ("10: opened before the first evaluation", |o| {
        o.is(Refusal::NotLive)
    }),
    ("opened for the first time", |o| {
        o.is_done() && o.past.openings == 0
    }),
    ("opened again, after an evaluation", |o| {
        o.is_done() && o.past.openings > 0
    }),
    ("19: opened twice, no move between", |o| {
        o.is(Refusal::OpenedTwice) && o.evening() == Some(0)
    }),
    ("19: opened twice, moves between", |o| {
        o.is(Refusal::OpenedTwice) && o.evening() > Some(0)
    }),
    ("opened, Monitoring no", |o| {
        o.is_done() && o.statics(|s| !s.monitoring)
    }),
    ("19: opened twice, Monitoring no", |o| {
        o.is(Refusal::OpenedTwice) && o.statics(|s| !s.monitoring)
    }),
    ("opened, Autochange no", |o| {
        o.is_done() && o.statics(|s| !s.autochange)
    }),
    ("opened, the maximum 0", |o| {
        o.is_done() && o.statics(|s| s.evening_maximum == 0)
    }),
    ("opened, a top near", |o| {
        o.is_done() && o.is_with(|r| near(r, Side::Upper) > 0)
    }),
    ("opened, a bottom near", |o| {
        o.is_done() && o.is_with(|r| near(r, Side::Lower) > 0)
    }),
    ("opened, both near", |o| {
        o.is_done() && o.is_with(|r| near(r, Side::Upper) > 0 && near(r, Side::Lower) > 0)
    }),
    ("opened, the tops of two terms near", |o| {
        o.is_done() && o.is_with(|r| near(r, Side::Upper) > 1)
    }),
    ("opened, nothing near", |o| {
        o.is_done() && o.is_with(|r| near(r, Side::Upper) + near(r, Side::Lower) == 0)
    }),
    ("opened, no move made", |o| {
        o.is_done() && o.is_with(|r| r.moves_upper + r.moves_lower == 0)
    }),
    ("opened, moves made on both sides", |o| {
        o.is_done() && o.is_with(|r| r.moves_upper > 0 && r.moves_lower > 0)
    }),
    ("opened, a quote before", |o| {
        o.is_done() && o.is_with(|r| r.last_second > 0)
    }),
];

const EVALUATIONS: [Edge<Seen>; 3] = [
    ("evaluated in the evening, no move made", |e| {
        e.is_done() && e.evening() == Some(0)
    }),
    ("evaluated in the evening, moves made", |e| {
        e.is_done() && e.evening() > Some(0)
    }),
    ("an evaluation refused in the evening", |e| {
        !e.is_done() && e.evening().is_some()
    }),
];

const MOVES: [Edge<Seen>; 27] = [
    ("maximum 0: 18 at once", |m| {
        m.is_used_up(0, |upper, lower| upper + lower == 0)
    }),
    ("maximum 1: the one move, upper", |m| {
        m.is_done() && m.has_maximum(1) && m.side == Some(Side::Upper)
    }),
    ("maximum 1: the one move, lower", |m| {
        m.is_done() && m.has_maximum(1) && m.side == Some(Side::Lower)
    }),
    ("maximum 1: 18, reached by an upper move", |m| {
        m.is_used_up(1, |upper, _| upper == 1) && m.side == Some(Side::Upper)
    }),
    ("maximum 1: 18, reached by a lower move", |m| {
        m.is_used_up(1, |_, lower| lower == 1) && m.side == Some(Side::Lower)
    }),
    ("maximum 1: 18 of the side that did not move", |m| {
        let has_none = |(_, evening)| evening == 0;
        m.is_used_up(1, |_, _| true) && m.own_moves().map_or(false, has_none)
    }),
    ("maximum 10: the ninth move", |m| {
        m.is_done() && m.has_maximum(10) && m.evening() == Some(8)
    }),
    ("maximum 10: the tenth move", |m| {
        m.is_done() && m.has_maximum(10) && m.evening() == Some(9)
    }),
    ("maximum 10: 18, reached by upper moves", |m| {
        m.is_used_up(10, |upper, _| upper == 10)
    }),
    ("maximum 10: 18, reached by lower moves", |m| {
        m.is_used_up(10, |_, lower| lower == 10)
    }),
    ("maximum 10: 18, reached by moves of both sides", |m| {
        m.is_used_up(10, |upper, lower| upper > 0 && lower > 0)
    }),
    ("18: Autochange no, and the maximum not reached", |m| {
        let is_below = m.statics(|s| !s.autochange && m.evening() < Some(s.evening_maximum));
        m.is(Refusal::NoEveningMove) && is_below
    }),
    ("a main move, Autochange no", |m| {
        m.is_done() && m.evening().is_none() && m.statics(|s| !s.autochange)
    }),
    ("a main move, the maximum 0", |m| {
        m.is_done() && m.evening().is_none() && m.statics(|s| s.evening_maximum == 0)
    }),
    ("a main move after an evening and an evaluation", |m| {
        m.is_done() && m.evening().is_none() && m.past.openings > 0
    }),
    ("6 before 18", |m| {
        m.is(Refusal::ValueOutOfRange) && m.has_no_move_left()
    }),
    ("11 before 18", |m| {
        m.is(Refusal::NotMonitored) && m.has_no_move_left()
    }),
    ("18 before 12", |m| {
        let is_fifty = |(main, evening)| main + evening == *MOVE_COUNT.end();
        m.is(Refusal::NoEveningMove) && m.own_moves().map_or(false, is_fifty)
    }),
    ("18 at 49 moves over both sessions", |m| {
        m.is(Refusal::NoEveningMove) && m.is_over_both(49)
    }),
    ("the fiftieth move over both sessions", |m| {
        m.is_done() && m.is_over_both(49)
    }),
    ("the forty-ninth move over both sessions", |m| {
        m.is_done() && m.is_over_both(48)
    }),
    ("the fiftieth move, and the evening's first", |m| {
        m.is_done() && m.own_moves() == Some((49, 0))
    }),
    ("12: fifty moves over both sessions", |m| {
        m.is(Refusal::MovesExhausted) && m.is_over_both(50)
    }),
    ("12: fifty moves of the main session, in the evening", |m| {
        m.is(Refusal::MovesExhausted) && m.own_moves() == Some((50, 0))
    }),
    ("12: fifty moves of the main session, in it", |m| {
        m.is(Refusal::MovesExhausted) && m.evening().is_none()
    }),
    ("an evening move beside fifty of the other side", |m| {
        let of_other = m.side.and_then(|side| m.moves(other(side)));
        m.is_done() && matches!(of_other, Some((main, evening)) if main + evening == 50)
    }),
    ("an evening move, fifty of the sides together alone", |m| {
        let most = *MOVE_COUNT.end();
        let is_so = |r: &Record| r.moves_upper + r.moves_lower >= most;
        let is_below = |r: &Record| r.moves_upper.max(r.moves_lower) < most;
        m.is_done() && m.evening().is_some() && m.is_with(|r| is_so(r) && is_below(r))
    }),
];

/// A side of the term that a quote names.
#[derive(Clone, Copy)]
struct SeenSide {
    /// Its near second right before the latest opening.
    main: Option<i64>,
    /// Its near second after the quote.
    now: Option<i64>,
    is_alert: bool,
}

/// A quote of a term, and what came before it.
struct SeenQuote {
    number: i64,
    second: i64,
    before: Record,
    /// The record right before the opening, where the quote is in the evening.
    main: Option<Record>,
    sides: [SeenSide; 2],
}

/// The near seconds of a term's top and bottom.
fn near_sides(record: &Record, term: usize) -> [Option<i64>; 2] {
    let term = &record.terms[term];
    [term.near_top, term.near_bottom]
}

impl SeenQuote {
    /// None where there is no such id or term.
    fn of(call: &Call, past: Past) -> Option<SeenQuote> {
        let (before, after) = (call.before?, call.after?);
        let numbers = call.numbers();
        let places = 0..before.terms.len();
        let term = usize::try_from(numbers[2]).ok();
        let term = term.filter(|term| places.contains(term))?;
        let main = past.main.filter(|_| before.session != Session::Main);
        let was = main.map_or([None; 2], |main| near_sides(&main, term));
        let now = near_sides(&after, term);
        let alerts = call.answer.figures();
        Some(SeenQuote {
            number: call.answer.number(),
            second: numbers[1],
            before,
            main,
            sides: [0, 1].map(|side| SeenSide {
                main: was[side],
                now: now[side],
                is_alert: alerts.get(1 + side) == Some(&1),
            }),
        })
    }

    fn is_done(&self) -> bool {
        self.number == 0
    }

    /// A near second that the opening cleared would give an alert, and there is
    /// none.
    fn is_cleared(&self, side: usize) -> bool {
        let SeenSide {
            main,
            now,
            is_alert,
        } = self.sides[side];
        let due = main.map(|since| since + self.before.near_seconds());
        let is_due = due.map_or(false, |due| due <= self.second);
        self.is_done() && now.is_some() && !is_alert && is_due
    }

    /// No quote was taken since the opening, and one before it.
    fn is_first(&self) -> bool {
        let last = self.main.map_or(0, |main| main.last_second);
        last > 0 && self.before.last_second == last
    }

    /// The edges of its alerts, where u and u of the evening are apart.
    fn alert_edges(&self) -> Vec<String> {
        let statics = &self.before.statics;
        let (u, evening) = (statics.near_seconds, statics.evening_seconds);
        let mut edges = Vec::new();
        if !self.is_done() || u == evening {
            return edges;
        }
        let session = usize::from(self.before.session != Session::Main);
        for (side, seen) in self.sides.iter().enumerate() {
            for (place, (_, seconds)) in PLACES.iter().enumerate() {
                if seen.now.map(|since| self.second - since) == Some(seconds(statics)) {
                    edges.push(alert_edge(session, usize::from(u > evening), side, place));
                }
            }
        }
        edges
    }
}

const QUOTES: [Edge<SeenQuote>; 5] = [
    ("no alert: the opening cleared a near top", |q| {
        q.is_cleared(0)
    }),
    ("no alert: the opening cleared a near bottom", |q| {
        q.is_cleared(1)
    }),
    ("13: before the last second of the main session", |q| {
        q.number == Refusal::EarlierSecond.number() && q.is_first()
    }),
    ("a quote at the last second of the main session", |q| {
        q.is_done() && q.is_first() && q.second == q.before.last_second
    }),
    ("near again after the opening, and its alert", |q| {
        let mut sides = q.sides.iter();
        sides.any(|side| side.main.is_some() && side.is_alert)
    }),
];

const SESSIONS: [&str; 2] = ["main", "evening"];
const ORDERS: [&str; 2] = ["u below", "u above"];
const SIDES: [&str; 2] = ["top", "bottom"];
/// Seconds by a security's statics.
type Seconds = fn(&Statics) -> i64;
/// How long a side is near, beside u and u of the evening.
const PLACES: [(&str, Seconds); 4] = [
    ("one second short of u", |s| s.near_seconds - 1),
    ("u", |s| s.near_seconds),
    ("one second short of u_evening", |s| s.evening_seconds - 1),
    ("u_evening", |s| s.evening_seconds),
];

/// A side that is near for so long, where u and u of the evening are apart.
fn alert_edge(session: usize, order: usize, side: usize, place: usize) -> String {
    let (session, order) = (SESSIONS[session], ORDERS[order]);
    let (side, (place, _)) = (SIDES[side], PLACES[place]);
    format!("{session}, {order} u_evening: the {side} near for {place}")
}

fn alert_edges() -> impl Iterator<Item = String> {
    (0..32).map(|n| alert_edge(n / 16, n / 8 % 2, n / 4 % 2, n % 4))
}

/// The evening's statics.
const STATICS: [StaticEnds; 3] = [
    StaticEnds::new("UEVENING", 22, NEAR_SECONDS),
    StaticEnds::new("AUTOCHANGE", 23, FLAG),
    StaticEnds::new("EVENINGMAX", 24, EVENING_MOVES),
];

fn look_at_quote(tally: &mut Tally, quote: &SeenQuote) {
    tally.look(&QUOTES, quote);
    for edge in quote.alert_edges() {
        tally.meet(&edge);
    }
}

/// Counts the edges that a script meets.
pub fn count_session(input: impl BufRead) -> io::Result<Count> {
    let edges = names(OPENINGS.to_vec())
        .chain(names(EVALUATIONS.to_vec()))
        .chain(names(MOVES.to_vec()))
        .chain(names(QUOTES.to_vec()))
        .chain(alert_edges())
        .chain(STATICS.iter().flat_map(StaticEnds::edges));
    let mut tally = Tally::new(edges);
    let mut pasts: HashMap<i64, Past> = HashMap::new();
    calls(input, |call| {
        let numbers = call.numbers();
        let past = pasts.entry(numbers[0]).or_default();
        match call.verb {
            b"open" => {
                tally.look(&OPENINGS, &Seen::of(call, *past));
                if call.answer.number() == 0 {
                    past.main = call.before;
                    past.openings += 1;
                }
            }
            b"evaluate" => tally.look(&EVALUATIONS, &Seen::of(call, *past)),
            b"move" => tally.look(&MOVES, &Seen::of(call, *past)),
            b"quote" => {
                if let Some(quote) = SeenQuote::of(call, *past) {
                    look_at_quote(&mut tally, &quote);
                }
            }
            b"admit" => {
                STATICS.iter().for_each(|ends| ends.look(&mut tally, call));
            }
            _ => {}
        }
    })?;
    Ok(tally.count())
}
