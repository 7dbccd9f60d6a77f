//! The author's turns of the interest side: sheets, and days that take worked
//! pairs.

use crate::interest::{Pair, Sheet, MATURITY, VALUES};
use crate::record::is_repo_term;
use crate::script::edges::{edge, neighbours, unsettled_count};
use crate::script::{day, edges, interest, spelling};
use crate::slices::split_first;
use crate::words::Word;

use super::Author;

/// Pairs of the latest interest lines, kept or not, that the author remembers.
const PAIRS: usize = 8;
/// How many of a hundred days take worked pairs, where they may.
const PAIRED_PERCENT: usize = 45;
/// Sheets of the interest side whose evenings go on at a time.
const SHEETS: usize = 6;

impl Author {
    /// One thing of the interest side, by its weight among a hundred.
    pub(super) fn interest_turn(&mut self) {
        match self.random.below(100) {
            0..=26 => self.fresh_sheet(),
            27..=44 => self.next_evening(),
            45 => self.evenings(),
            46..=55 => self.sheet_at_an_edge(),
            56..=71 => self.unsettled_sheet(),
            72..=83 => self.sheet_at_an_end(),
            84..=85 => self.taken_at_an_end(),
            86 => self.taken_from_none(),
            87..=93 => self.misordered_sheet(),
            _ => self.lengthened_sheet(),
        }
    }

    /// Says a day, often with worked pairs in place of given bands.
    pub(super) fn say_day(&mut self, numbers: &[i64]) {
        if self.random.chance(PAIRED_PERCENT) {
            let words = self.paired(numbers);
            self.say("evaluate", &words);
        } else {
            self.say("evaluate", numbers);
        }
    }

    /// A day's words with a worked pair for at least one term.
    fn paired(&mut self, numbers: &[i64]) -> Vec<Word> {
        let (head, rest) = numbers.split_at(4);
        let (terms, rows) = rest.split_at(edges::DAY.len() - 4);
        let mut words: Vec<Word> = head.iter().copied().map(Word::from).collect();
        words.extend(self.paired_terms(terms));
        words.extend(rows.iter().copied().map(Word::from));
        words
    }

    /// The words of three terms with a worked pair for at least one of them.
    pub(super) fn paired_terms(&mut self, terms: &[i64]) -> Vec<Word> {
        let sure = self.random.below(3);
        let mut words = Vec::new();
        for (index, term) in terms.chunks_exact(3).enumerate() {
            words.push(term[0].into());
            if index == sure || self.random.chance(25) {
                words.push(Word::Pair(self.pair()));
            } else {
                words.extend(term[1..].iter().copied().map(Word::from));
            }
        }
        words
    }

    /// A pair that is kept with a band that a day may have; now and then any
    /// kept one, or one that is not kept.
    fn pair(&mut self) -> Pair {
        let kept: Vec<Pair> = self.kept.bands().map(|(pair, _)| pair).collect();
        let is_taken = |pair: &Pair| {
            let band = self.kept.band(*pair);
            band.map_or(false, |band| is_repo_term(0, band.rrcl, band.rrch))
        };
        let taken: Vec<Pair> = kept.iter().copied().filter(is_taken).collect();
        match self.random.below(20) {
            0..=15 if !taken.is_empty() => self.random.pick(&taken),
            0..=17 if !kept.is_empty() => self.random.pick(&kept),
            _ => self.pair_not_kept(),
        }
    }

    /// A pair of a refused or an older line, turned round, or of any numbers.
    fn pair_not_kept(&mut self) -> Pair {
        let last = self.pairs.last().copied().unwrap_or(Pair::HELD);
        match self.random.below(4) {
            0 if !self.pairs.is_empty() => self.random.pick(&self.pairs),
            1 => Pair {
                ym: last.yn,
                yn: last.ym,
            },
            2 => Pair {
                ym: last.ym,
                yn: last.yn.saturating_add(self.random.pick(&[-1, 1])),
            },
            _ => self.random.pick(&[
                Pair { ym: -1, yn: 1 },
                Pair { ym: 0, yn: -1 },
                Pair { ym: 0, yn: 366 },
                Pair {
                    ym: i64::MIN,
                    yn: i64::MAX,
                },
            ]),
        }
    }

    /// Says a sheet's numbers, whether or not they are accepted.
    fn say_sheet(&mut self, numbers: &[i64]) {
        self.pairs.push(Pair {
            ym: numbers[1],
            yn: numbers[2],
        });
        if self.pairs.len() > PAIRS {
            self.pairs.remove(0);
        }
        self.say("interest", numbers);
    }

    /// Says an accepted sheet, whose evenings may go on.
    fn say_accepted(&mut self, sheet: Sheet) {
        self.say_sheet(&sheet.numbers());
        let worked = sheet.worked();
        self.sheets.push((sheet, worked));
        if self.sheets.len() > SHEETS {
            let oldest = self.random.below(SHEETS);
            self.sheets.remove(oldest);
        }
    }

    pub(super) fn sheet(&mut self) -> Sheet {
        interest::sheet(&mut self.random)
    }

    fn fresh_sheet(&mut self) {
        let sheet = self.sheet();
        self.say_accepted(sheet);
    }

    /// The next evening of a sheet, given the last one's figures.
    fn next_evening(&mut self) {
        if self.sheets.is_empty() {
            return self.fresh_sheet();
        }
        let index = self.random.below(self.sheets.len());
        let (sheet, worked) = self.sheets.remove(index);
        let next = interest::next_evening(&mut self.random, &sheet, &worked);
        self.say_accepted(next);
    }

    /// Many evenings of one sheet.
    fn evenings(&mut self) {
        let mut sheet = self.sheet();
        for _ in 0..self.random.between(5, 20) {
            let next = interest::next_evening(&mut self.random, &sheet, &sheet.worked());
            self.say_accepted(sheet);
            sheet = next;
        }
    }

    /// The two sheets between which a figure changes with one number.
    fn sheet_at_an_edge(&mut self) {
        let numbers = self.sheet().numbers();
        let word = self.random.below(numbers.len());
        let (low, high) = interest::sheet_ends(word);
        let other = self.random.between(low - 1, high + 1);
        let figure = self.random.below(9);
        let with = |value: i64| {
            let mut tried = numbers.clone();
            tried[word] = value;
            tried
        };
        let figure_at = |value: i64| {
            let tried = with(value);
            let (values, maturities) = split_first::<VALUES, _>(&tried)?;
            let worked = Sheet::from_numbers(values, maturities).ok()?.worked();
            worked.numbers().get(figure).copied()
        };
        match neighbours(numbers[word], other, figure_at) {
            Some((low, high)) => {
                self.say_sheet(&with(low));
                self.say_sheet(&with(high));
            }
            None => self.say_sheet(&numbers),
        }
    }

    /// A sheet with one number at or just past an end of its range, each in its
    /// turn.
    fn sheet_at_an_end(&mut self) {
        let sheet = self.sheet();
        let (place, end) = (self.ends / 4 % (VALUES + MATURITY), self.ends % 4);
        self.ends += 1;
        let key = match place.checked_sub(VALUES) {
            None => 0,
            Some(0) if end % 2 == 0 => 0,
            Some(0) => sheet.keys.len() - 1,
            Some(_) => self.random.below(sheet.keys.len()),
        };
        let word = place + MATURITY * key;
        let (low, high) = interest::sheet_ends(word);
        let mut numbers = sheet.numbers();
        numbers[word] = [low, high, low - 1, high + 1][end];
        self.say_sheet(&numbers);
    }

    /// A worked band with a limit at or just past the end of what a day may
    /// have, and a day that takes it.
    fn taken_at_an_end(&mut self) {
        let sheet = interest::at_an_end(&mut self.random);
        let pair = sheet.pair;
        self.say_accepted(sheet);
        let record = self.record();
        self.take(record.id, record.last_day() + 1, pair);
    }

    /// A day, of no admitted security or late now and then, that takes a band
    /// that is not kept.
    fn taken_from_none(&mut self) {
        let record = self.record();
        let id = if self.random.chance(50) {
            record.id
        } else {
            self.new_id()
        };
        let number = record.last_day() + self.random.between(0, 1);
        let pair = self.pair_not_kept();
        self.take(id, number, pair);
    }

    /// A bare day with a pair's band for one term.
    fn take(&mut self, id: i64, number: i64, pair: Pair) {
        let numbers = day::bare(id, number);
        let mut words: Vec<Word> = numbers.into_iter().map(Word::from).collect();
        let low = 5 + 3 * self.random.below(3);
        words.splice(low..low + 2, [Word::Pair(pair)]);
        self.say("evaluate", &words);
    }

    /// A sheet with a few values at or past their ends, now and then
    /// misordered too.
    fn unsettled_sheet(&mut self) {
        let mut sheet = self.sheet();
        if self.random.chance(10) {
            interest::misorder(&mut self.random, &mut sheet);
        }
        let mut numbers = sheet.numbers();
        for _ in 0..unsettled_count(&mut self.random) {
            let among = self.random.pick(&[VALUES, numbers.len()]);
            let word = self.random.below(among);
            numbers[word] = edge(&mut self.random, interest::sheet_ends(word), numbers[word]);
        }
        self.say_sheet(&numbers);
    }

    fn misordered_sheet(&mut self) {
        let mut sheet = self.sheet();
        interest::misorder(&mut self.random, &mut sheet);
        self.say_sheet(&sheet.numbers());
    }

    fn lengthened_sheet(&mut self) {
        let sheet = self.sheet();
        let numbers = interest::lengthen(&mut self.random, &sheet);
        self.say_sheet(&numbers);
    }

    /// A pair that is spelled wrongly, or stands where it may not.
    pub(super) fn wrong_pair(&mut self) {
        let line = if self.random.chance(80) {
            let record = self.record();
            let numbers = day::numbers(&mut self.random, &record);
            let words = self.paired(&numbers);
            spelling::wrongly_paired(&mut self.random, "evaluate", &words)
        } else {
            let (verb, numbers) = self.any_call();
            spelling::wrongly_paired(&mut self.random, verb, &numbers)
        };
        self.say_line(&line);
    }
}
