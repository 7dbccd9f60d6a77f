// The calls of the evening's text (docs/EVENING.md, "The calls") and the numbers of each in their order: the one list
// that forms, lines and files of admissions go over. Ranges and units are those of documents 01 and 02.
import { choice, decimal, float, pair, timeOfDay } from './kinds.mjs';

/**
 * @typedef {object} Field
 * @property {string} name  As docs/EVENING.md writes it.
 * @property {string} label  As the page shows it.
 * @property {string} meaning  One sentence.
 * @property {import('./kinds.mjs').Kind} kind
 * @property {bigint} least  The ends of the range, in the line's whole numbers.
 * @property {bigint} most
 * @property {string} [preset]  The word that an empty field stands for; without it the field must be filled.
 * @property {string[]} [instead]  The fields that stay empty where this one is filled.
 *
 * @typedef {object} Order  What two or three fields owe to each other.
 * @property {string} at  The field at fault.
 * @property {string[]} needs  The fields whose numbers `holds` takes.
 * @property {(...numbers: bigint[]) => boolean} holds
 * @property {string} text  What it must be.
 *
 * @typedef {object} Rows  The groups of numbers at the end of a line.
 * @property {string} label  What one of them is called.
 * @property {Field[]} fields
 * @property {number} least  How many there may be.
 * @property {number} most
 * @property {Order[]} orders
 * @property {string} [ascends]  The field that is greater in each row than in the one before.
 *
 * @typedef {object} Call
 * @property {string} word
 * @property {string} label
 * @property {string} meaning
 * @property {Field[]} fields
 * @property {Order[]} orders
 * @property {Rows} [rows]
 */

// ---- units

const NUMBER = decimal('', 0);
const PIECES = decimal('pieces', 0);
const DAYS = decimal('days', 0);
const TRADING_DAYS = decimal('trading days', 0);
const SECONDS = decimal('seconds', 0);
const MOVES = decimal('moves', 0);
const THOUSANDS = decimal("thousands of the row's currency", 0);
const ROUBLES = decimal('roubles', 4); // ten-thousandths of a rouble
const OF_CURRENCY = decimal("of the row's currency", 4);
const PER_CENT = decimal('per cent', 2); // basis points, or hundredths of a per cent
const VOLATILITY = decimal('per cent', 4); // millionths
const TIMES = decimal('times', 2); // hundredths
const HUNDREDTHS = decimal('', 2);
const TEN_THOUSANDTHS = decimal('', 4);
const YES_NO = choice('no', 'yes');
const BAND_SIDE = choice('upper', 'lower');
const PRICE_SIDE = choice('bid', 'ask');

// ---- ends of ranges

const PRICE_MOST = 10_000_000_000;
const QUOTE_MOST = 100_000_000_000;
const RATE_MOST = 10_000;
const REPO_MOST = 9_999;
const MATURITY_MOST = 365;
const TENTATIVE_MOST = 100_999; // no step makes more of "the least multiple of h at or above 100,000 bp"
const TENTATIVE_REACHED = 100_000n;

// A float's bits ascend with its value. These are of the least float that is at least half a unit, 0.00005 roubles, and
// of the greatest one below 10^10 units and a half.
const FLOAT_LEAST = 4_542_503_522_391_573_293n;
const FLOAT_MOST = 4_696_837_146_685_115_832n;

/** @returns {Field} */
const field = (/** @type {string} */ name, /** @type {string} */ label, /** @type {import('./kinds.mjs').Kind} */ kind,
    /** @type {number | bigint} */ least, /** @type {number | bigint} */ most, /** @type {string} */ meaning) => (
    { name, label, kind, least: BigInt(least), most: BigInt(most), meaning });

/** An empty field stands for 0, which is none. @returns {Field} */
const orNone = (/** @type {Field} */ of) => ({ ...of, preset: '0' });

// ---- fields that several calls have

const ID = field('ID', 'Security', NUMBER, 1, 1_000_000_000, 'The number of the security.');
const DAY_MOST = 1_000_000;
const B = field('B', 'Days off behind', DAYS, 0, 30,
    'The non-trading days between the day before the last one and this day.');
const M = field('M', 'Days off ahead', DAYS, 0, 10, 'The non-trading days ahead.');
const S = field('S', 'Volatility', VOLATILITY, 0, 1_000_000, 'The volatility of the last day.');
const TENTATIVE = field('TENTATIVE', 'Tentative rate', PER_CENT, 0, TENTATIVE_MOST,
    'The tentative rate of the last day, a multiple of the step; it may stand above the greatest rate.');
const AGE = field('AGE', 'Age', TRADING_DAYS, 0, 250, 'How long the tentative rate has stayed.');
const H = field('H', 'Step', PER_CENT, 1, 1_000, 'The step of all rates.');
const Q = field('Q', 'Multiplier', TIMES, 100, 1_000, 'The multiplier of the volatility.');
const WEIGHTS = [
    field('A_UP', 'Weight up', TEN_THOUSANDTHS, 0, 10_000, 'The weight of a move above the volatility.'),
    field('A_DOWN', 'Weight down', TEN_THOUSANDTHS, 0, 10_000, 'The weight of a move not above the volatility.'),
];
const WAIT = field('WAIT', 'Wait', TRADING_DAYS, 1, 250, 'How long the tentative rate waits before it falls.');
const LEVELS = [
    field('RH1', 'Horizon 1', DAYS, 1, 5, 'The horizon of level 1.'),
    field('RH2', 'Horizon 2', DAYS, 1, 30, 'The horizon of level 2, not below that of level 1.'),
    field('RH3', 'Horizon 3', DAYS, 1, 30, 'The horizon of level 3, not below that of level 2.'),
    field('LIQ', 'Liquidity rate', PER_CENT, 0, 500, 'What the liquidity of the market adds to the rates.'),
    field('MIN1', 'Least rate 1', PER_CENT, 0, RATE_MOST, 'The least rate of level 1, a multiple of the step.'),
    field('MIN2', 'Least rate 2', PER_CENT, 0, RATE_MOST, 'The least rate of level 2, a multiple of the step.'),
    field('MIN3', 'Least rate 3', PER_CENT, 0, RATE_MOST, 'The least rate of level 3, a multiple of the step.'),
    field('SMAX', 'Greatest rate', PER_CENT, 0, RATE_MOST, 'The greatest rate of all levels, a multiple of the step.'),
];
const XPR = field('XPR', 'Band divisor', TIMES, 50, 1_000, 'The rate of level 1 over this is how far a band reaches.');
const FARTHEST = [
    field('PCHMAX', 'Farthest upper', PER_CENT, 0, RATE_MOST,
        'How far the upper band limit may be above the evaluation.'),
    field('PCLMAX', 'Farthest lower', PER_CENT, 0, RATE_MOST,
        'How far the lower band limit may be below the evaluation.'),
];
const FLAGS = [
    field('MONITORING', 'Monitoring', YES_NO, 0, 1,
        'Whether bands follow the rates, and quotes and moves are taken; if not, bands are the farthest ones.'),
    field('ISEWMA', 'isEWMA', YES_NO, 0, 1, 'Whether rates follow the volatility; if not, they are the least rates.'),
];

/** A term of an evaluation or a bond: its days, and its repo band, given or of a pair. @returns {Field[]} */
const term = (/** @type {number} */ n) => [
    field(`K${n}`, `Term ${n}`, DAYS, 0, 30, `The days of term ${n}.`),
    {
        ...field(`PAIR${n}`, `Pair of term ${n}`, pair, 0, MATURITY_MOST,
            'The repo band that the latest accepted interest line of this pair answered, in place of the two limits.'),
        preset: '',
        instead: [`RRCL${n}`, `RRCH${n}`],
    },
    field(`RRCL${n}`, `Lower repo limit ${n}`, PER_CENT, -REPO_MOST, REPO_MOST, `The lower repo rate of term ${n}.`),
    field(`RRCH${n}`, `Upper repo limit ${n}`, PER_CENT, -REPO_MOST, REPO_MOST,
        `The upper repo rate of term ${n}, not below the lower one.`),
];
const TERMS = [0, 1, 2].flatMap(term);

// ---- orders that several calls have

/** @returns {Order} */
const notBelow = (/** @type {string} */ at, /** @type {string} */ other) => (
    { at, needs: [other, at], holds: (low, high) => low <= high, text: `must not be below ${other}` });

/** @returns {Order} */
const multiple = (/** @type {string} */ at) => (
    { at, needs: ['H', at], holds: (h, rate) => rate % h === 0n, text: 'must be a multiple of the step H' });

/** @type {Order[]} */
const LEVEL_ORDERS = [
    notBelow('RH2', 'RH1'), notBelow('RH3', 'RH2'),
    notBelow('MIN2', 'MIN1'), notBelow('MIN3', 'MIN2'), notBelow('SMAX', 'MIN3'),
    ...['MIN1', 'MIN2', 'MIN3', 'SMAX', 'TENTATIVE'].map(multiple),
    {
        at: 'TENTATIVE',
        needs: ['H', 'TENTATIVE'],
        holds: (h, rate) => rate - h < TENTATIVE_REACHED,
        text: 'must not be above the least multiple of the step H that reaches 1000 per cent',
    },
];
/** @type {Order[]} */
const TERM_ORDERS = [0, 1, 2].flatMap((n) => [
    notBelow(`RRCH${n}`, `RRCL${n}`),
    { at: `PAIR${n}`, needs: [`PAIR${n}`], holds: (ym, yn) => ym < yn, text: 'must have the lesser term first' },
]);

// "Grid: g = 100 units for lot 1, 10 for 2..10, 1 for 11..100."
const gridOf = (/** @type {bigint} */ lot) => lot <= 1n ? 100n : lot <= 10n ? 10n : 1n;

/** @returns {Order} */
const onGrid = (/** @type {string} */ at) => ({
    at,
    needs: ['LOT', at],
    holds: (lot, price) => price % gridOf(lot) === 0n,
    text: 'must have at most two decimals for a lot of 1, three for 2 to 10, four for more',
});

// ---- the calls

/** @type {Call} */
const admit = {
    word: 'admit',
    label: 'Admit',
    meaning: 'A security enters the table, with its statics and its last figures.',
    fields: [
        ID,
        field('DAY', 'Last day', NUMBER, 0, DAY_MOST, 'The day number of the last evaluation.'),
        field('P1', 'Latest evaluation', ROUBLES, 1, PRICE_MOST, "The last day's evaluation, on the lot's grid."),
        field('P2', 'Evaluation before', ROUBLES, 1, PRICE_MOST, "The evaluation before it, on the lot's grid."),
        S,
        TENTATIVE,
        field('LOT', 'Lot', PIECES, 1, 100, 'The pieces of a lot, which set how many decimals a price has.'),
        H,
        Q,
        ...WEIGHTS,
        WAIT,
        ...LEVELS,
        XPR,
        field('SHIFT', 'Shift', HUNDREDTHS, 1, 100, "How far a move goes, as a part of an unmoved band's width."),
        ...FARTHEST,
        field('W', 'Nearness', TEN_THOUSANDTHS, 0, 5_000,
            "How near a quote has to be to a limit, as a part of the band's width."),
        field('U', 'Alert after', SECONDS, 1, 3_600, 'How long a side is near before an alert, in the main session.'),
        ...FLAGS,
        field('UEVENING', 'Alert after, evening', SECONDS, 1, 3_600,
            'How long a side is near before an alert, in the evening.'),
        field('AUTOCHANGE', 'Moves in the evening', YES_NO, 0, 1, 'Whether a side may be moved in the evening.'),
        field('EVENINGMAX', 'Most evening moves', MOVES, 0, 10, 'The most moves of an evening, both sides together.'),
        field('USEEXTERNAL', 'Outside prices', YES_NO, 0, 1, 'Whether an evaluation uses the outside bid and ask.'),
    ],
    orders: [onGrid('P1'), onGrid('P2'), ...LEVEL_ORDERS],
};

/** @type {Rows} */
const dayRows = {
    label: 'Row',
    least: 0,
    most: 16,
    fields: [
        field('T', 'Settlement', DAYS, 0, 30, 'The days to the settlement of the row.'),
        field('RC', 'Central rate', ROUBLES, 1, 10_000_000, "What one of the row's currency is; 1 for roubles."),
        field('REPO', 'Repo rate', PER_CENT, -REPO_MOST, REPO_MOST, 'The repo rate for the days to the settlement.'),
        orNone(field('CLOSE', 'Close', OF_CURRENCY, 0, PRICE_MOST, 'The closing price; empty where it is missing.')),
        orNone(field('BID', 'Bid', OF_CURRENCY, 0, PRICE_MOST, 'The best bid; empty where it is missing.')),
        orNone(field('ASK', 'Ask', OF_CURRENCY, 0, PRICE_MOST, 'The best ask; empty where it is missing.')),
        field('VOLUME', 'Volume', THOUSANDS, 0, 100_000_000, 'The volume of trades; 0 where there was none.'),
    ],
    orders: [
        {
            at: 'BID',
            needs: ['BID', 'ASK'],
            holds: (bid, ask) => bid <= 0n || ask <= 0n || bid <= ask,
            text: 'must not be above ASK in one row',
        },
        {
            at: 'VOLUME',
            needs: ['VOLUME', 'CLOSE'],
            holds: (volume, close) => volume <= 0n || close > 0n,
            text: 'must be 0 where CLOSE is missing',
        },
    ],
};

/** @type {Call} */
const evaluate = {
    word: 'evaluate',
    label: 'Evaluate',
    meaning: 'A day of a security is evaluated: its price, volatility, rates, ranges and bands.',
    fields: [
        ID,
        field('DAY', 'Day', NUMBER, 0, DAY_MOST, 'The day number of this evaluation, after the last one.'),
        B,
        M,
        ...TERMS,
    ],
    orders: TERM_ORDERS,
    rows: dayRows,
};

/** @type {Call} */
const quote = {
    word: 'quote',
    label: 'Quote',
    meaning: 'A quote is taken; the answer is whether the top or the bottom of the band has an alert.',
    fields: [
        ID,
        field('SECOND', 'Time', timeOfDay, 0, 86_399, 'When the quote was made, not before the last one.'),
        field('TERM', 'Term', NUMBER, 0, 2, 'The term that is quoted: 0, 1 or 2.'),
        orNone(field('BID', 'Bid', ROUBLES, 0, QUOTE_MOST, 'The bid; empty where it is missing.')),
        orNone(field('ASK', 'Ask', ROUBLES, 0, QUOTE_MOST, 'The ask; empty where it is missing.')),
    ],
    orders: [],
};

/** A call that names a security, and these fields besides. @returns {Call} */
const ofSecurity = (/** @type {string} */ word, /** @type {string} */ label, /** @type {string} */ meaning,
    /** @type {Field[]} */ ...fields) => ({ word, label, meaning, fields: [ID, ...fields], orders: [] });

const floatField = (/** @type {string} */ name, /** @type {string} */ label) => (
    field(name, label, float, FLOAT_LEAST, FLOAT_MOST, 'The price that the outside source sends, a 64-bit float.'));

const others = [
    ofSecurity('move', 'Move', 'One side of the band and of the ranges is moved outward.',
        field('SIDE', 'Side', BAND_SIDE, 0, 1, 'The side that is moved.')),
    ofSecurity('open', 'Open the evening', 'The evening session of a security is opened.'),
    ofSecurity('outside', 'Outside prices', 'An outside bid and ask replace those that are kept.',
        floatField('BIDBITS', 'Outside bid'), floatField('ASKBITS', 'Outside ask')),
    ofSecurity('notice', 'Outside notice', 'One outside price replaces the one that is kept.',
        field('SIDE', 'Side', PRICE_SIDE, 0, 1, 'Which price it is.'), floatField('BITS', 'Outside price')),
    ofSecurity('withdraw', 'Withdraw', 'The outside bid and ask are withdrawn.'),
    ofSecurity('read', 'Read', 'The record of a security is shown; nothing changes.'),
];

const rate = (/** @type {string} */ name, /** @type {string} */ label, /** @type {string} */ meaning) => (
    field(name, label, PER_CENT, -REPO_MOST, REPO_MOST, meaning));
const minimum = (/** @type {string} */ name, /** @type {string} */ label, /** @type {string} */ meaning) => (
    field(name, label, PER_CENT, 0, 9_999, meaning));

/** @type {Call} */
const interest = {
    word: 'interest',
    label: 'Interest',
    meaning: 'The repo band of a pair of terms is worked out from the key maturities.',
    fields: [
        B,
        field('YM', 'First term', DAYS, 0, MATURITY_MOST, 'The days of the first term of the pair.'),
        field('YN', 'Second term', DAYS, 0, MATURITY_MOST, 'The days of the second term, after the first.'),
        ...WEIGHTS,
        Q,
        H,
        WAIT,
        minimum('LIQ', 'Liquidity rate', 'What the liquidity of the market adds to the estimates.'),
        minimum('MM', 'Least upward', 'The least upward estimate.'),
        minimum('SEC', 'Least downward', 'What the least downward estimate has above the index less the repo rate.'),
        field('XIR', 'Band divisor', TIMES, 50, 1_000, 'An estimate over this is how far a repo limit reaches.'),
        rate('MONEY', 'Money rollover', 'The rate that holds the upper limit of the pair 0/1.'),
        rate('SECRATE', 'Security rollover', 'The rate that holds the lower limit of the pair 0/1.'),
    ],
    orders: [
        { at: 'YN', needs: ['YM', 'YN'], holds: (ym, yn) => ym < yn, text: 'must be after YM' },
    ],
    rows: {
        label: 'Key maturity',
        least: 1,
        most: 8,
        ascends: 'T',
        fields: [
            field('T', 'Maturity', DAYS, 0, MATURITY_MOST, 'The days of the key maturity, more than before.'),
            rate('R', 'Repo rate', 'The repo rate of this evening.'),
            rate('R1', 'Repo rate 1', 'The repo rate of the evening before.'),
            rate('R2', 'Repo rate 2', 'The repo rate of two evenings before.'),
            rate('INDEX', 'Repo index', 'The repo index of this evening.'),
            field('VOLATILITY', 'Volatility', PER_CENT, 0, 19_998, 'The volatility of the evening before.'),
            field('TENTATIVE', 'Tentative rate', PER_CENT, 0, 200_979, 'The tentative rate of the evening before.'),
            AGE,
        ],
        orders: [],
    },
};

/** @type {Call} */
const bond = {
    word: 'bond',
    label: 'Bond',
    meaning: 'A bond is worked out: its gross evaluation, rates and limits; nothing is kept of it.',
    fields: [
        M,
        field('NET', 'Net evaluation', PER_CENT, 1, 30_000, 'The net evaluation, in per cent of the face value.'),
        field('FACE', 'Face value', ROUBLES, 0, PRICE_MOST, 'The face value.'),
        field('ACCRUED', 'Accrued interest', ROUBLES, 0, PRICE_MOST, 'The interest accrued.'),
        rate('REPO', 'Repo rate', 'The repo rate REPORate.'),
        { ...S, meaning: 'The volatility, which is given.' },
        TENTATIVE,
        AGE,
        ...TERMS,
        H,
        Q,
        WAIT,
        ...LEVELS,
        XPR,
        ...FARTHEST,
        ...FLAGS,
    ],
    orders: [
        { at: 'FACE', needs: ['FACE'], holds: (face) => face !== 0n, text: 'must be above 0' },
        ...LEVEL_ORDERS,
        ...TERM_ORDERS,
    ],
    rows: {
        label: 'Cash flow',
        least: 0,
        most: 4,
        fields: [
            field('DAY', 'Day', DAYS, 1, 30, 'How many days ahead it is paid.'),
            field('AMOUNT', 'Amount', ROUBLES, 0, PRICE_MOST, 'What is paid.'),
        ],
        orders: [],
    },
};

/** Every call, in the order in which a page offers them. @type {Call[]} */
export const calls = [admit, evaluate, quote, ...others, interest, bond];

/** The names of an admission's statics, which one security may have from another. */
export const staticNames = admit.fields.map(({ name }) => name).filter((_, at, names) => at >= names.indexOf('LOT'));

/** The call of a word, or undefined. @returns {Call | undefined} */
export const callOf = (/** @type {string} */ word) => calls.find((call) => call.word === word);

/** What a field may be, in words. */
export function rangeOf(/** @type {Field} */ { kind, least, most }) {
    if (kind.names !== undefined) return kind.names.join(' or ');
    const ends = `${kind.typed(String(least))} to ${kind.typed(String(most))}`;
    return kind.unit === '' || kind === timeOfDay ? ends : `${ends} ${kind.unit}`;
}

/** What a field must be, in words: its range. */
export const mustBe = (/** @type {Field} */ field) => (
    `must be ${field.kind.names === undefined ? 'from ' : ''}${rangeOf(field)}`);

/**
 * The word of a typed value. A value that is a number out of its range has both a word and a fault: the text can carry
 * it, and the program refuses it.
 * @param {Field} field
 * @param {string | undefined} typed
 * @returns {{ word?: string, fault?: string }}
 */
export function wordOf(field, typed) {
    const text = (typed ?? '').trim();
    if (text === '') return field.preset === undefined ? { fault: 'is missing' } : { word: field.preset };
    const read = field.kind.read(text);
    if ('fault' in read) return read;
    const inRange = field.kind.numbers(read.word).every((number) => field.least <= number && number <= field.most);
    return inRange ? read : { ...read, fault: mustBe(field) };
}
