//! Random evenings. The author keeps a desk of its own while it writes, so
//! that most calls are about admitted securities and meet their edges.

mod bonds;
mod outsides;
mod sessions;
mod sheets;

use crate::desk::{self, fresh_table, SLOTS_MAX};
use crate::interest::{Pair, Sheet, Worked};
use crate::kept::Kept;
use crate::protocol::{perform, Asked};
use crate::random::Random;
use crate::record::Record;
use crate::refusal::Refusal;
use crate::units::{Range, ID, MOVE_COUNT};
use crate::words::{hear, number_or_pair, Word, EVENING, EVENING_LINE_MAX};

use super::edges::{edge, neighbours, unsettled_count, Ends};
use super::{
    crossed, day, edges, headings, inward, outside, quote, replacement, share, spelling, tentative,
    why,
};

/// Securities that the author works on at a time.
const FOCUS: usize = 24;
/// It turns to others about once in so many draws.
const FOCUS_DRAWS: usize = 900;
/// A shorter script does not fill the table.
const FILLING_LINES: usize = 2_000;
/// In how many of a hundred turns the interest side has its turn.
const INTEREST_PERCENT: usize = 31;
/// In how many of a hundred of the other turns bonds have theirs.
const BOND_PERCENT: usize = 16;
/// A shorter script has no long spells of one security.
const SPELL_LINES: usize = 10_000;
/// Days of a quiet spell: the longest wait and a little more.
const QUIET_DAYS: i64 = 254;
/// After how many of a hundred lines the table is filled.
const FILL_AT: usize = 25;
/// Securities of a spell that are made for the edges of a replacement: two for
/// each meeting of them.
const REPLACED: usize = 2 * replacement::SHARES;
/// Draws of a record whose next day can stand at the edge of a replacement.
const REPLACED_DRAWS: usize = 8;
/// Draws of a record whose next day can have a crossed row and another fault.
const CROSSED_DRAWS: usize = 40;
/// Draws of a record whose next day can stand at an edge of its reasons.
const WHY_DRAWS: usize = 1_500;
/// What else may be wrong with a day that has a crossed row.
const ALSO_REFUSED: [Refusal; 8] = [
    Refusal::ValueOutOfRange,
    Refusal::ValueOutOfRange,
    Refusal::DayNotAfterLast,
    Refusal::DayNotAfterLast,
    Refusal::EvaluationOutOfRange,
    Refusal::MoveTooGreat,
    Refusal::BandCrossed,
    Refusal::BandCrossed,
];
/// After how many of a hundred lines each spell comes.
const SPELLS: &[(usize, Spell)] = &[
    (4, Spell::Headings),
    (6, Spell::Outside),
    (8, Spell::Falls),
    (11, Spell::Replaced),
    (13, Spell::Sessions),
    (14, Spell::Stays),
    (15, Spell::Admissions),
    (17, Spell::Reasoned),
    (20, Spell::Widest),
    (22, Spell::Uncapped),
    (24, Spell::Inward),
];

/// A long spell of one security.
#[derive(Clone, Copy, Debug, PartialEq, Eq)]
enum Spell {
    /// Its volatility stays, and the tentative rate falls after the longest
    /// wait.
    Falls,
    /// Nothing changes while its age climbs to the end.
    Stays,
    /// Its limits move to the greatest a record may hold.
    Widest,
    /// Not one security but many, each made for the edges of a replacement.
    Replaced,
    /// Many, each made for the reasons of a level.
    Reasoned,
    /// None, but an admission for each number at fault.
    Admissions,
    /// Many, each with a band limit beside a multiple of the grid.
    Inward,
    /// Many, each with a tentative rate beside S_max, above it or at its top.
    Uncapped,
    /// Many, each with a main session and an evening made for their moves.
    Sessions,
    /// Many, each with outside prices of every kind.
    Outside,
    /// No security, but every kind of heading.
    Headings,
}

/// A script of so many lines. Scripts of odd seeds lack the last line's end.
pub fn script(seed: u64, lines: usize) -> Vec<u8> {
    let mut author = Author::new(seed, lines);
    author.write();
    if seed % 2 == 1 {
        author.text.pop();
    }
    author.text
}

struct Author {
    random: Random,
    table: Vec<Record>,
    kept: Kept,
    admitted: usize,
    focus: Vec<usize>,
    /// Accepted sheets and what they gave.
    sheets: Vec<(Sheet, Worked)>,
    /// The pairs of the latest interest lines.
    pairs: Vec<Pair>,
    /// How many ends of the interest side's ranges have had their turn.
    ends: usize,
    /// The edges of an evaluation's reasons.
    reasons: why::Aims,
    /// How many edges of a bond have had their turn.
    aims: usize,
    text: Vec<u8>,
    heard: Vec<Word>,
    lines: usize,
    written: usize,
}

impl Author {
    fn new(seed: u64, lines: usize) -> Author {
        Author {
            random: Random::new(seed),
            table: fresh_table(SLOTS_MAX),
            kept: Kept::default(),
            admitted: 0,
            focus: Vec::new(),
            sheets: Vec::new(),
            pairs: Vec::new(),
            ends: 0,
            reasons: why::Aims::new(),
            aims: 0,
            text: Vec::new(),
            heard: Vec::new(),
            lines,
            written: 0,
        }
    }

    /// A long script begins and ends with a heading.
    fn write(&mut self) {
        if self.lines < SPELL_LINES {
            return self.write_turns();
        }
        self.heading();
        self.lines -= 1;
        self.write_turns();
        self.lines += 1;
        self.heading();
    }

    fn write_turns(&mut self) {
        let mut spells = SPELLS.iter();
        let mut spell = spells.next();
        while !self.is_done() {
            if self.admitted < FOCUS / 2 {
                self.admission();
            } else if self.lines >= FILLING_LINES && self.is_past(FILL_AT) && !self.is_full() {
                self.fill();
            } else if let Some((_, kind)) =
                spell.filter(|(percent, _)| self.lines >= SPELL_LINES && self.is_past(*percent))
            {
                self.spell(*kind);
                spell = spells.next();
            } else {
                self.turn();
            }
        }
    }

    /// Whether so many of a hundred lines are written.
    fn is_past(&self, percent: usize) -> bool {
        100 * self.written >= percent * self.lines
    }

    fn is_done(&self) -> bool {
        self.written >= self.lines
    }

    fn is_full(&self) -> bool {
        self.admitted == self.table.len()
    }

    /// Writes one line and performs it, unless the script is done.
    fn say_line(&mut self, line: &[u8]) {
        if self.is_done() {
            return;
        }
        self.text.extend(line);
        self.text.push(b'\n');
        self.written += 1;
        let (table, kept) = (&mut self.table, &mut self.kept);
        let (heard, reasons) = (&mut self.heard, &mut self.reasons);
        hear(line, &EVENING, heard, number_or_pair, |verb, words| {
            if verb == b"evaluate" {
                let asked = Asked::from_words(kept, words)?;
                reasons.look(&asked, desk::read(table, asked.id).ok());
            }
            perform(table, kept, verb, words)
        });
        self.admitted = self.table.partition_point(|record| record.id != 0);
    }

    fn say<W: Copy + Into<Word>>(&mut self, verb: &str, words: &[W]) {
        let line = spelling::spelled(&mut self.random, verb, words);
        self.say_line(&line);
    }

    /// One thing an evening has.
    fn turn(&mut self) {
        if self.random.chance(INTEREST_PERCENT) {
            self.interest_turn();
        } else if self.random.chance(BOND_PERCENT) {
            self.bond_turn();
        } else {
            self.desk_turn();
        }
    }

    /// One thing of the desk, by its weight.
    fn desk_turn(&mut self) {
        match self.random.below(1_062) {
            0..=159 => self.day(),
            160..=234 => self.reasoned_day(),
            235..=294 => self.replaced_day(),
            295..=339 => self.crossed_day(),
            340..=459 => self.day_at_an_edge(),
            460..=539 => self.unsettled_day(),
            540..=679 => self.quote(),
            680..=704 => self.unsettled_quote(),
            705..=729 => self.alerts(),
            730..=789 => self.move_side(),
            790..=809 => self.open(),
            810..=819 => self.unsettled_move(),
            820..=849 => self.read(),
            850..=869 => self.admission(),
            870..=875 => self.wrong_pair(),
            876..=905 => self.unsettled_admission(),
            906..=915 => self.second_admission(),
            916..=929 => self.stranger(),
            930..=964 => self.damage(),
            965..=979 => self.blank(),
            980..=981 => self.long_line(),
            982..=984 => self.all_moves(),
            985..=999 => self.days(),
            1_000..=1_011 => {
                let theme = headings::Theme::any(&mut self.random);
                self.headed(theme);
            }
            _ => self.outside_turn(),
        }
    }

    /// A slot that the author works on; now and then any admitted one.
    fn slot(&mut self) -> usize {
        let stale = self.focus.is_empty() || self.random.below(FOCUS_DRAWS) == 0;
        if stale {
            let (random, admitted) = (&mut self.random, self.admitted);
            self.focus = (0..FOCUS).map(|_| random.below(admitted)).collect();
        }
        if self.random.chance(85) {
            self.random.pick(&self.focus)
        } else {
            self.random.below(self.admitted)
        }
    }

    fn record(&mut self) -> Record {
        let slot = self.slot();
        self.table[slot]
    }

    /// A record that is live and monitored, if a few draws find one; now and
    /// then any.
    fn live_record(&mut self) -> Record {
        let mut record = self.record();
        if self.random.chance(15) {
            return record;
        }
        for _ in 0..8 {
            if record.is_live() && record.statics.monitoring {
                break;
            }
            record = self.record();
        }
        record
    }

    fn new_id(&mut self) -> i64 {
        loop {
            let id = match self.random.below(30) {
                0 => *ID.start(),
                1 => *ID.end(),
                _ => self.random.any_size(*ID.end()).max(*ID.start()),
            };
            if self.table.iter().all(|record| record.id != id) {
                return id;
            }
        }
    }

    fn admission(&mut self) {
        let id = self.new_id();
        let numbers = share::admission(&mut self.random, id);
        self.say("admit", &numbers);
    }

    fn unsettled_admission(&mut self) {
        let id = if self.random.chance(20) {
            self.record().id
        } else {
            self.new_id()
        };
        let numbers = if self.random.chance(40) {
            share::missed_admission(&mut self.random, id)
        } else {
            self.edged_admission(id)
        };
        self.say("admit", &numbers);
    }

    /// An admission with a few values at or past their ends.
    fn edged_admission(&mut self, id: i64) -> Vec<i64> {
        let random = &mut self.random;
        let mut numbers = share::admission(random, id);
        for _ in 0..unsettled_count(random) {
            let among = random.pick(&[edges::ADMISSION.len(), numbers.len()]);
            let word = random.below(among);
            let ends = match word.checked_sub(edges::ADMISSION.len()) {
                None => edges::ADMISSION[word],
                Some(word) => edges::STATICS[word],
            };
            numbers[word] = edge(random, ends, numbers[word]);
        }
        numbers
    }

    /// An id that is admitted already.
    fn second_admission(&mut self) {
        let id = self.record().id;
        let numbers = share::admission(&mut self.random, id);
        self.say("admit", &numbers);
    }

    /// Admissions until no slot is empty, a few of them out of range.
    fn fill(&mut self) {
        while !self.is_full() && !self.is_done() {
            if self.random.chance(95) {
                self.admission();
            } else {
                self.unsettled_admission();
            }
        }
        for _ in 0..5 {
            self.admission();
        }
    }

    fn day(&mut self) {
        let record = self.record();
        let numbers = day::numbers(&mut self.random, &record);
        self.say_day(&numbers);
    }

    /// Many days of one security.
    fn days(&mut self) {
        let slot = self.slot();
        for _ in 0..self.random.between(5, 20) {
            let record = self.table[slot];
            let numbers = if self.random.chance(50) {
                day::bare(record.id, record.last_day() + 1)
            } else {
                day::numbers(&mut self.random, &record)
            };
            self.say_day(&numbers);
        }
    }

    /// A day at the edge of a replacement, of a security that can have one.
    fn replaced_day(&mut self) {
        for _ in 0..REPLACED_DRAWS {
            let record = self.record();
            if let Some(price) = replacement::price(&mut self.random, &record) {
                let holidays = self.random.pick(&[0, 0, 0, 0, 1, 1, 2]);
                return self.trade(record.id, record.last_day() + 1, holidays, price);
            }
        }
        self.day();
    }

    /// A day with a row whose bid stands beside its ask. A crossed one is said
    /// once more with its columns put right.
    fn crossed_day(&mut self) {
        if self.random.chance(40) {
            return self.crossed_and_refused();
        }
        let record = self.record();
        let random = &mut self.random;
        let is_crossed = random.chance(50);
        let sides = if is_crossed {
            random.pick(&crossed::Sides::CROSSED)
        } else {
            random.pick(&crossed::Sides::UNCROSSED)
        };
        let numbers = crossed::numbers(random, &record, sides);
        self.say("evaluate", &numbers);
        if is_crossed {
            self.say("evaluate", &crossed::mended(&numbers));
        }
    }

    /// A day with a crossed row and something else that is refused, of a
    /// security that can have it.
    fn crossed_and_refused(&mut self) {
        let refusal = self.random.pick(&ALSO_REFUSED);
        for _ in 0..CROSSED_DRAWS {
            let record = self.record();
            if let Some(mut numbers) = crossed::refused(&mut self.random, &record, refusal) {
                if self.random.chance(20) {
                    numbers[0] = self.new_id();
                }
                return self.say("evaluate", &numbers);
            }
        }
    }

    /// A day at the next edge of its reasons, of a security that can have it.
    fn reasoned_day(&mut self) {
        let place = self.reasons.next();
        for _ in 0..WHY_DRAWS {
            let mut record = self.table[self.random.below(self.admitted)];
            let is_admitted = self.random.chance(90);
            if !is_admitted {
                record.id = self.new_id();
            }
            let edge = self.reasons.edge(place);
            if let Some(numbers) = why::attempt(&mut self.random, &record, is_admitted, edge) {
                return self.say("evaluate", &numbers);
            }
        }
        self.day();
    }

    /// A day on which a security trades at a price.
    fn trade(&mut self, id: i64, number: i64, holidays: i64, price: i64) {
        let numbers = replacement::day_at(&mut self.random, id, number, holidays, price);
        self.say("evaluate", &numbers);
    }

    /// A long spell of one security that is made for it, or of many.
    fn spell(&mut self, kind: Spell) {
        let id = self.new_id();
        match kind {
            Spell::Falls => self.quiet_spell(&share::quiet_admission(id, true)),
            Spell::Stays => self.quiet_spell(&share::quiet_admission(id, false)),
            Spell::Widest => self.widest_spell(id),
            Spell::Admissions => self.refused_admissions(id),
            Spell::Replaced => (0..REPLACED).for_each(|turn| self.replaced_security(turn)),
            Spell::Uncapped => (0..tentative::SHARES).for_each(|turn| self.uncapped_security(turn)),
            Spell::Inward => (0..inward::SHARES).for_each(|turn| self.inward_security(turn)),
            Spell::Reasoned => (0..why::SHARES).for_each(|turn| self.reasoned_security(turn)),
            Spell::Sessions => self.every_plan(),
            Spell::Outside => self.outside_spell(),
            Spell::Headings => headings::THEMES
                .iter()
                .for_each(|theme| self.headed(*theme)),
        }
    }

    fn quiet_spell(&mut self, admission: &[i64]) {
        self.say("admit", admission);
        self.quiet_days(admission[0], 1..=QUIET_DAYS);
    }

    /// Admissions that are refused for each number.
    fn refused_admissions(&mut self, id: i64) {
        for numbers in super::field::every(&mut self.random, id) {
            self.say("admit", &numbers);
        }
    }

    fn widest_spell(&mut self, id: i64) {
        let admission = share::widest_admission(&mut self.random, id);
        self.say("admit", &admission);
        self.quiet_days(id, 1..=1);
        self.every_move(id, 0);
        self.every_move(id, 1);
        self.quiet_days(id, 2..=2);
        let heaviest = [day::bare(id, 3), day::heaviest_rows()].concat();
        self.say("evaluate", &heaviest);
    }

    /// A security made for the edge of a replacement, and its first day.
    fn replaced_security(&mut self, turn: usize) {
        let id = self.new_id();
        if let Some(made) = replacement::made(&mut self.random, id, turn) {
            self.say("admit", &made.admission);
            let holidays = self.random.pick(&[0, 0, 1]);
            self.trade(id, 1, holidays, made.price);
        }
    }

    /// A security made for the reasons of a level, and its first day.
    fn reasoned_security(&mut self, turn: usize) {
        let id = self.new_id();
        if let Some(admission) = why::made(&mut self.random, id, turn) {
            self.say("admit", &admission);
            self.quiet_days(id, 1..=1);
        }
    }

    /// A security made for its tentative rate, a refused admission of it before,
    /// and its first days.
    fn uncapped_security(&mut self, turn: usize) {
        let id = self.new_id();
        let made = tentative::made(&mut self.random, id, turn);
        self.say("admit", &made.refused);
        self.say("admit", &made.admission);
        self.quiet_days(id, 1..=made.days);
    }

    /// A security made for its band limits, its first day, and a move of each
    /// side.
    fn inward_security(&mut self, turn: usize) {
        let id = self.new_id();
        if let Some(made) = inward::made(&mut self.random, id, turn) {
            self.say("admit", &made.admission);
            self.say("evaluate", &made.day);
            self.say("move", &[id, 0]);
            self.say("move", &[id, 1]);
        }
    }

    fn quiet_days(&mut self, id: i64, numbers: Range) {
        for number in numbers {
            self.say("evaluate", &day::bare(id, number));
        }
    }

    /// A day beside the place where a watched figure changes with one of its
    /// numbers: the refused side first, else one side only, as the record
    /// then moves on.
    fn day_at_an_edge(&mut self) {
        let record = self.record();
        let numbers = day::numbers(&mut self.random, &record);
        let word = 1 + self.random.below(numbers.len() - 1);
        let (low, high) = day_ends(word);
        let other = self.random.between(low, high);
        let figure = self.random.pick(&WATCHED);
        let with = |value: i64| {
            let mut tried = numbers.clone();
            tried[word] = value;
            tried
        };
        let figure_at = |value: i64, figure: usize| {
            let words: Vec<Word> = with(value).into_iter().map(Word::from).collect();
            let kept = &mut Kept::default();
            let answer = perform(&mut [record], kept, b"evaluate", &words)?;
            answer.figures().get(figure).copied()
        };
        let is_refused = |value: i64| figure_at(value, 0) != Some(0);
        let found = neighbours(numbers[word], other, |value| figure_at(value, figure));
        let (low, high) = match found {
            Some(neighbours) => neighbours,
            None => {
                self.say("evaluate", &numbers);
                return;
            }
        };
        if is_refused(low) || is_refused(high) {
            let (refused, other) = if is_refused(low) {
                (low, high)
            } else {
                (high, low)
            };
            self.say("evaluate", &with(refused));
            self.say("evaluate", &with(other));
        } else {
            let side = self.random.pick(&[low, high]);
            self.say("evaluate", &with(side));
        }
    }

    fn unsettled_day(&mut self) {
        let record = self.record();
        let mut numbers = day::numbers(&mut self.random, &record);
        for _ in 0..unsettled_count(&mut self.random) {
            let word = 1 + self.random.below(numbers.len() - 1);
            numbers[word] = edge(&mut self.random, day_ends(word), numbers[word]);
        }
        self.say_day(&numbers);
    }

    fn quote(&mut self) {
        let record = self.live_record();
        let numbers = quote::numbers(&mut self.random, &record);
        self.say("quote", &numbers);
    }

    fn unsettled_quote(&mut self) {
        let record = self.record();
        let mut numbers = quote::numbers(&mut self.random, &record);
        for _ in 0..unsettled_count(&mut self.random) {
            let word = 1 + self.random.below(numbers.len() - 1);
            numbers[word] = edge(&mut self.random, edges::QUOTE[word], numbers[word]);
        }
        self.say("quote", &numbers);
    }

    /// Near quotes one second short of u, at u, and beyond; then not near. Now
    /// and then u is that of the other session.
    fn alerts(&mut self) {
        let record = self.live_record();
        let term = self.random.below(record.terms.len());
        let bid = quote::near_bid(&record, term) + self.random.between(-1, 0);
        let ask = quote::near_ask(&record, term) + self.random.between(0, 1);
        let sides = self.random.pick(&[(1, 1), (1, 0), (0, 1)]);
        let start = record.last_second + self.random.between(0, 5);
        let wait = quote::wait(&mut self.random, &record);
        for after in [0, wait - 1, wait, wait, wait + 1] {
            let numbers = [
                record.id,
                start + after,
                term as i64,
                (bid * sides.0).max(0),
                (ask * sides.1).max(0),
            ];
            self.say("quote", &numbers);
        }
        let cleared = [record.id, start + wait + 1, term as i64, 0, 0];
        self.say("quote", &cleared);
    }

    fn move_side(&mut self) {
        let record = self.live_record();
        let side = self.random.between(0, 1);
        self.say("move", &[record.id, side]);
    }

    fn unsettled_move(&mut self) {
        let record = self.record();
        let side = edge(&mut self.random, edges::MOVE[1], 0);
        self.say("move", &[record.id, side]);
    }

    fn all_moves(&mut self) {
        let id = self.live_record().id;
        let side = self.random.between(0, 1);
        self.every_move(id, side);
        self.say("move", &[id, 1 - side]);
    }

    /// Every move a side has, and some it has not, with quotes between.
    fn every_move(&mut self, id: i64, side: i64) {
        for _ in 0..=*MOVE_COUNT.end() + 3 {
            self.say("move", &[id, side]);
            if self.random.chance(10) {
                self.quote();
            }
        }
        self.say("read", &[id]);
    }

    fn read(&mut self) {
        let id = self.record().id;
        self.say("read", &[id]);
    }

    /// A call about an id that is not admitted.
    fn stranger(&mut self) {
        let id = match self.random.below(3) {
            0 => self.new_id(),
            1 => self
                .random
                .pick(&[0, -1, i64::MIN, i64::MAX, *ID.end() + 1]),
            _ => -self.record().id,
        };
        let (verb, mut numbers) = self.any_desk_call();
        numbers[0] = id;
        if verb == "evaluate" {
            self.say_day(&numbers);
        } else {
            self.say(verb, &numbers);
        }
    }

    fn any_call(&mut self) -> (&'static str, Vec<i64>) {
        if self.random.chance(INTEREST_PERCENT) {
            ("interest", self.sheet().numbers())
        } else if self.random.chance(BOND_PERCENT) {
            ("bond", super::bond::bond(&mut self.random).numbers())
        } else {
            self.any_desk_call()
        }
    }

    fn any_desk_call(&mut self) -> (&'static str, Vec<i64>) {
        let record = self.record();
        let random = &mut self.random;
        match random.below(9) {
            0 => ("admit", share::admission(random, record.id)),
            1 => ("evaluate", day::numbers(random, &record)),
            2 => ("quote", quote::numbers(random, &record).to_vec()),
            3 => ("move", vec![record.id, random.between(0, 1)]),
            4 => ("open", vec![record.id]),
            5 => ("withdraw", vec![record.id]),
            6 => {
                let bits = outside::any(random, record.p1);
                ("notice", vec![record.id, random.between(0, 1), bits])
            }
            7 => {
                let bid = outside::any(random, record.p1);
                let ask = outside::any(random, record.p1);
                ("outside", vec![record.id, bid, ask])
            }
            _ => ("read", vec![record.id]),
        }
    }

    fn damage(&mut self) {
        let (verb, numbers) = self.any_call();
        let line = spelling::damaged(&mut self.random, verb, &numbers);
        self.say_line(&line);
    }

    fn blank(&mut self) {
        let line = spelling::blank(&mut self.random);
        self.say_line(&line);
    }

    fn heading(&mut self) {
        let line = headings::any(&mut self.random);
        self.say_line(&line);
    }

    /// Lines with a heading among them, or what looks like one.
    fn headed(&mut self, theme: headings::Theme) {
        let (verb, numbers) = self.any_call();
        let call = spelling::spelled(&mut self.random, verb, &numbers);
        for line in theme.lines(&mut self.random, &call) {
            self.say_line(&line);
        }
    }

    /// An evaluation with far too many figures, or a call or nothing with far too
    /// many blanks, up to the most bytes of a line and past them.
    fn long_line(&mut self) {
        let record = self.record();
        let mut numbers = day::bare(record.id, record.last_day() + 1);
        match self.random.below(4) {
            0 | 1 => {
                numbers.resize(130 + self.random.below(2_900), 1);
                self.say("evaluate", &numbers);
            }
            2 => {
                let mut line = vec![b' '; 1 + self.random.below(9_000)];
                line.extend(spelling::spelled(&mut self.random, "evaluate", &numbers));
                self.say_line(&line);
            }
            _ => {
                let mut line = Vec::new();
                if self.random.chance(80) {
                    line = spelling::spelled(&mut self.random, "evaluate", &numbers);
                }
                let past = self.random.pick(&[0, 1, 2, 3, 2 + EVENING_LINE_MAX]);
                line.resize(EVENING_LINE_MAX - 1 + past, b' ');
                self.say_line(&line);
            }
        }
    }
}

/// The figures of an answer whose change is looked for: the number, the
/// evaluation, s, tentative, age, rates, range limits and band limits.
const WATCHED: [usize; 24] = [
    0, 0, 0, 0, 4, 6, 7, 7, 8, 9, 9, 10, 11, 12, 13, 14, 15, 16, 17, 21, 22, 28, 29, 36,
];

/// The ends of the n-th number of a day.
fn day_ends(word: usize) -> Ends {
    match word.checked_sub(edges::DAY.len()) {
        None => edges::DAY[word],
        Some(figure) => edges::ROW[figure % edges::ROW.len()],
    }
}
