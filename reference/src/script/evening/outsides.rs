//! The author's turns of outside prices (W-211): floats of every class, and
//! evaluations beside the book's prices.

use crate::count_outside::{POWERS, POWERS_REFUSED};
use crate::evaluation::ROW;
use crate::outside::Quoted;
use crate::script::outside::{self, Beside, BESIDES};
use crate::script::{day, share};
use crate::statics::Statics;
use crate::units::PRICE;

use super::Author;

/// The price of a security of the spell, in units.
const PRICE_OF_ALL: i64 = 1_000_000;
/// The book's bid and ask beside it.
const BOOK: [i64; 2] = [990_000, 1_010_000];
/// Sides of a notice that are none.
const NO_SIDES: [i64; 4] = [-1, 2, i64::MIN, i64::MAX];
/// A row of a currency at 12.5000: its close, bid and ask are 1,000,000,
/// 990,000 and 1,010,000 units in roubles.
const CURRENCY_ROW: [i64; ROW] = [0, 125_000, 0, 80_000, 79_200, 80_800, 5];

impl Author {
    /// One thing of outside prices, by its weight among a hundred.
    pub(super) fn outside_turn(&mut self) {
        let record = self.record();
        let (id, price) = (record.id, record.p1);
        let random = &mut self.random;
        match random.below(100) {
            0..=39 => {
                let pair = [outside::any(random, price), outside::any(random, price)];
                self.say("outside", &[id, pair[0], pair[1]]);
            }
            40..=74 => {
                let side = random.between(0, 1);
                let bits = outside::any(random, price);
                self.say("notice", &[id, side, bits]);
            }
            75..=79 => {
                let side = random.pick(&NO_SIDES);
                let bits = outside::any(random, price);
                self.say("notice", &[id, side, bits]);
            }
            _ => self.say("withdraw", &[id]),
        }
    }

    /// A float of a price.
    fn float(&mut self, price: i64) -> i64 {
        outside::float_of(&mut self.random, price)
    }

    /// Says an outside bid and ask, or a notice of the one that there is, or a
    /// withdrawal where there is neither; 0 is none.
    fn send(&mut self, id: i64, bid: i64, ask: i64) {
        if bid > 0 && ask > 0 {
            let (bid, ask) = (self.float(bid), self.float(ask));
            return self.say("outside", &[id, bid, ask]);
        }
        self.say("withdraw", &[id]);
        for (side, price) in Quoted::BOTH.into_iter().zip([bid, ask]) {
            if price > 0 {
                let bits = self.float(price);
                self.say("notice", &[id, side.number(), bits]);
            }
        }
    }

    /// Admits a security of the spell, refused admissions of it before.
    fn outside_security(&mut self, price: i64, statics: Statics) -> i64 {
        let id = self.new_id();
        let admission = outside::admission(id, price, statics);
        self.say("admit", &outside::refused(&admission, -1));
        self.say("admit", &outside::refused(&admission, 2));
        self.say("admit", &admission);
        id
    }

    /// The spell of outside prices.
    pub(super) fn outside_spell(&mut self) {
        self.every_float();
        self.every_kept_pair();
        for (monitoring, use_external) in [(true, true), (true, false), (false, true)] {
            self.every_standing(monitoring, use_external);
        }
        for use_external in [true, false] {
            self.beside_the_book(use_external);
            self.set_by_outside(use_external);
            self.at_the_ends(use_external);
        }
    }

    /// Floats of every class at each place, and of every power of two.
    fn every_float(&mut self) {
        let id = self.outside_security(PRICE_OF_ALL, share::Z);
        for bits in outside::classes(&mut self.random) {
            let good = outside::any_priced(&mut self.random);
            self.say("outside", &[id, bits, good]);
            self.say("outside", &[id, good, bits]);
            self.say("notice", &[id, 0, bits]);
            self.say("notice", &[id, 1, bits]);
        }
        for power in POWERS {
            let random = &mut self.random;
            let bid = outside::priced_at_power(random, power);
            let ask = outside::priced_at_power(random, power);
            self.say("outside", &[id, bid, ask]);
        }
        for power in POWERS_REFUSED {
            let side = self.random.between(0, 1);
            self.say("notice", &[id, side, outside::of_power(power, 0)]);
        }
    }

    /// Each call where nothing, a bid, an ask or both are kept, accepted and
    /// refused.
    fn every_kept_pair(&mut self) {
        let id = self.outside_security(PRICE_OF_ALL, share::Z);
        let stranger = self.new_id();
        let [bid, ask] = BOOK;
        for (bid, ask) in [
            (0, 0),
            (bid, 0),
            (0, ask),
            (bid, ask),
            (ask, bid),
            (bid, bid),
        ] {
            self.send(id, bid, ask);
            let bad = self.random.pick(&[0, -1, i64::MIN, i64::MAX, 1]);
            let good = self.float(PRICE_OF_ALL);
            let no_side = self.random.pick(&NO_SIDES);
            self.say("outside", &[id, bad, good]);
            self.say("outside", &[id, good, bad]);
            self.say("outside", &[id, bad, bad]);
            self.say("notice", &[id, 0, bad]);
            self.say("notice", &[id, 1, bad]);
            for side in [-1, 2, no_side] {
                self.say("notice", &[id, side, bad]);
                self.say("notice", &[id, side, good]);
            }
            for bits in [bad, good] {
                self.say("outside", &[stranger, bits, good]);
                self.say("notice", &[stranger, 0, bits]);
                self.say("notice", &[stranger, no_side, bits]);
            }
            self.say("withdraw", &[stranger]);
            for side in Quoted::BOTH {
                self.say("notice", &[id, side.number(), good]);
                self.send(id, bid, ask);
            }
            self.say("withdraw", &[id]);
        }
    }

    /// Each call before the first evaluation, in the main session and in the
    /// evening; and what leaves the pair.
    fn every_standing(&mut self, monitoring: bool, use_external: bool) {
        let statics = Statics {
            monitoring,
            use_external,
            ..share::Z
        };
        let id = self.outside_security(PRICE_OF_ALL, statics);
        self.every_call(id);
        self.say("evaluate", &day::bare(id, 1));
        self.every_call(id);
        self.say("quote", &[id, 100, 0, PRICE_OF_ALL, 0]);
        self.say("move", &[id, 0]);
        self.say("move", &[id, 1]);
        self.say("open", &[id]);
        self.every_call(id);
        self.say("quote", &[id, 200, 0, PRICE_OF_ALL, 0]);
        self.say("move", &[id, 0]);
        self.say("evaluate", &day::bare(id, 1));
        self.say("evaluate", &day::bare(id, 2));
        self.say("read", &[id]);
    }

    /// A pair, a notice of each side and a withdrawal; then a pair again.
    fn every_call(&mut self, id: i64) {
        let [bid, ask] = BOOK;
        self.send(id, bid, ask);
        for (side, price) in Quoted::BOTH.into_iter().zip(BOOK) {
            let bits = self.float(price + 1);
            self.say("notice", &[id, side.number(), bits]);
        }
        self.say("withdraw", &[id]);
        self.send(id, bid, ask);
    }

    /// Days on which each side stands in each way to the book's: of roubles and
    /// of a currency.
    fn beside_the_book(&mut self, use_external: bool) {
        let statics = Statics {
            use_external,
            ..share::Z
        };
        let id = self.outside_security(PRICE_OF_ALL, statics);
        let turned = self.random.below(BESIDES.len());
        for (turn, beside) in BESIDES.into_iter().enumerate() {
            let other = BESIDES[(turn + turned) % BESIDES.len()];
            let (book_bid, bid) = beside.prices(BOOK[0]);
            let (book_ask, ask) = other.prices(BOOK[1]);
            self.send(id, bid, ask);
            let close = self
                .random
                .pick(&[0, PRICE_OF_ALL, BOOK[0] - 1, BOOK[1] + 1]);
            let number = 2 * turn as i64 + 1;
            self.say(
                "evaluate",
                &outside::quoted_day(id, number, close, book_bid, book_ask),
            );
            if let (Beside::By(_), Beside::By(_)) = (beside, other) {
                let of_currency = [day::bare(id, number + 1), CURRENCY_ROW.to_vec()].concat();
                self.say("evaluate", &of_currency);
            }
        }
        for units in [-1, 1] {
            self.send(id, BOOK[0] + units, BOOK[1] + units);
            let number = 2 * BESIDES.len() as i64 + 3 + units;
            let of_currency = [day::bare(id, number), CURRENCY_ROW.to_vec()].concat();
            self.say("evaluate", &of_currency);
        }
    }

    /// Days whose price an outside one sets, with UseEXTERNAL yes: alone, across
    /// the book's or the other outside one, and where the close, or yesterday's
    /// price, is the same.
    fn set_by_outside(&mut self, use_external: bool) {
        let statics = Statics {
            use_external,
            is_ewma: false,
            ..share::Z
        };
        let (low, middle, high) = (BOOK[0], PRICE_OF_ALL, BOOK[1]);
        let far = (low - 10_000, high + 10_000);
        for (outside, close, book) in [
            // One side alone, and the close beyond it.
            ((high, 0), middle, (0, 0)),
            ((0, low), middle, (0, 0)),
            // No row trades.
            ((high, 0), 0, (0, 0)),
            ((0, low), 0, (0, 0)),
            ((low, high), 0, (0, 0)),
            // Across the book's.
            ((far.1, 0), middle, (low, high)),
            ((0, far.0), middle, (low, high)),
            // Across each other, the close between, above and below.
            ((high, low), middle, (0, 0)),
            ((high, low), far.1, (0, 0)),
            ((high, low), far.0, (0, 0)),
            // The close is the outside one.
            ((high, 0), high, (0, 0)),
            ((0, low), low, (0, 0)),
            // Yesterday's price is.
            ((middle, 0), 0, (0, 0)),
            ((0, middle), 0, (0, 0)),
            // Off the grid, at its ties and beside them.
            ((high + 5, 0), middle, (0, 0)),
            ((high + 4, 0), middle, (0, 0)),
            ((0, low + 5), middle, (0, 0)),
            ((0, low + 4), middle, (0, 0)),
        ] {
            let id = self.outside_security(middle, statics);
            self.send(id, outside.0, outside.1);
            let (bid, ask) = book;
            self.say("evaluate", &outside::quoted_day(id, 1, close, bid, ask));
            // The pair is still there on the next day; then a crossed row.
            self.say("evaluate", &outside::quoted_day(id, 2, close, bid, ask));
            self.say("evaluate", &outside::quoted_day(id, 3, close, high, low));
        }
    }

    /// An outside price at an end of its range, or so far away that the
    /// evaluation is refused 7 or 8.
    fn at_the_ends(&mut self, use_external: bool) {
        let most = *PRICE.end();
        let least = *PRICE.start();
        for (lot, price, bid, ask) in [
            (100, most / 2, most, 0),
            (100, PRICE_OF_ALL, 0, least),
            (1, PRICE_OF_ALL, 0, 49),
            (1, PRICE_OF_ALL, 0, 50),
            (10, PRICE_OF_ALL, 2 * PRICE_OF_ALL, 0),
            (10, PRICE_OF_ALL, 2 * PRICE_OF_ALL + 10, 0),
        ] {
            let statics = Statics {
                lot,
                use_external,
                ..share::Z
            };
            let id = self.outside_security(price, statics);
            self.send(id, bid, ask);
            self.say("evaluate", &outside::quoted_day(id, 1, price, 0, 0));
        }
    }
}
