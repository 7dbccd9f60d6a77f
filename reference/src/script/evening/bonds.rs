//! The author's turns of bonds: each edge that the count knows in its turn,
//! bonds of any kind, and bonds that take worked pairs.

use crate::bond::{worked, TERMS, VALUES};
use crate::count_bond::Aim;
use crate::script::bond;
use crate::script::edges::{edge, neighbours, unsettled_count};
use crate::slices::split_first;
use crate::words::Word;

use super::Author;

impl Author {
    /// One thing of bonds, by its weight among a hundred.
    pub(super) fn bond_turn(&mut self) {
        match self.random.below(100) {
            0..=61 => self.bond_at_an_aim(),
            62..=71 => self.fresh_bond(),
            72..=79 => self.bond_at_an_edge(),
            80..=87 => self.unsettled_bond(),
            _ => self.paired_bond(),
        }
    }

    pub(super) fn fresh_bond(&mut self) {
        let numbers = bond::bond(&mut self.random).numbers();
        self.say("bond", &numbers);
    }

    /// A bond at the next edge that the count knows.
    fn bond_at_an_aim(&mut self) {
        let aims = Aim::all();
        let aim = aims[self.aims % aims.len()];
        self.aims += 1;
        let numbers = bond::at(&mut self.random, aim);
        self.say("bond", &numbers);
    }

    /// The two bonds between which a figure changes with one number.
    fn bond_at_an_edge(&mut self) {
        let numbers = bond::bond(&mut self.random).numbers();
        let word = self.random.below(numbers.len());
        let (low, high) = bond::bond_ends(word);
        let other = self.random.between(low - 1, high + 1);
        let figure = self.random.below(18);
        let with = |value: i64| {
            let mut tried = numbers.clone();
            tried[word] = value;
            tried
        };
        let figure_at = |value: i64| {
            let tried = with(value);
            let (values, flows) = split_first::<VALUES, _>(&tried)?;
            worked(values, flows)
                .ok()
                .map(|worked| worked.numbers()[figure])
        };
        match neighbours(numbers[word], other, figure_at) {
            Some((low, high)) => {
                self.say("bond", &with(low));
                self.say("bond", &with(high));
            }
            None => self.say("bond", &numbers),
        }
    }

    /// A bond with a few values at or past their ends.
    fn unsettled_bond(&mut self) {
        let mut numbers = bond::bond(&mut self.random).numbers();
        for _ in 0..unsettled_count(&mut self.random) {
            let word = self.random.below(numbers.len());
            numbers[word] = edge(&mut self.random, bond::bond_ends(word), numbers[word]);
        }
        self.say("bond", &numbers);
    }

    /// A bond with a worked pair for at least one term.
    fn paired_bond(&mut self) {
        let numbers = bond::bond(&mut self.random).numbers();
        let (own, rest) = numbers.split_at(TERMS);
        let (terms, rest) = rest.split_at(9);
        let mut words: Vec<Word> = own.iter().copied().map(Word::from).collect();
        words.extend(self.paired_terms(terms));
        words.extend(rest.iter().copied().map(Word::from));
        self.say("bond", &words);
    }
}
