// What the programs print, as named figures: a line of `evening`, of `why` and of `listen`. The orders are those of
// docs/EVENING.md ("The answers", "Why") and docs/BROADCAST.md; each stands here once. No figure is changed: prices
// stay ten-thousandths of a rouble, rates basis points, volatilities millionths. All are whole numbers below 2^53.

/** The words of a line, as the programs part them: a blank is a space, a tab or a carriage return, and nothing else. */
export function wordsOf(line) {
    return line.split(/[ \t\r]+/).filter((word) => word !== '');
}

/** The calls' numbers in their order, of those whose numbers the page shows. */
export const ADMISSION = [
    'id', 'day', 'p1', 'p2', 's', 'tentative', 'lot', 'h', 'q', 'aUp', 'aDown', 'wait', 'rh1', 'rh2', 'rh3', 'liq',
    'min1', 'min2', 'min3', 'smax', 'xpr', 'shift', 'pchmax', 'pclmax', 'w', 'u', 'monitoring', 'isewma', 'uevening',
    'autochange', 'eveningmax', 'useexternal',
];

/** The statics are what an admission has from LOT on; a message of kind 1 has the id and them. */
export const STATICS = ADMISSION.slice(ADMISSION.indexOf('lot'));

const LEVELS = [1, 2, 3];
const TERMS = [0, 1, 2];
const TERM = ['k', 'rrcl', 'rrch', 'lower', 'upper', 'nearTop', 'nearBottom'];

/** The figures of a record in their order, the levels' and the terms' with their number behind them. */
export const RECORD = [
    'id', 'live', 'day', 'p1', 'p2', 's', 'tentative', 'age',
    ...LEVELS.map((level) => `s${level}`),
    ...LEVELS.map((level) => `upper${level}`),
    ...LEVELS.map((level) => `lower${level}`),
    ...TERMS.flatMap((term) => TERM.map((name) => `${name}_${term}`)),
    'movesUpper', 'movesLower', 'lastSecond', 'session', 'eveningMoves', 'extBid', 'extAsk',
];

const MATURITY = ['change', 'volatility', 'tentative', 'age', 'up', 'down'];
const BOND = ['p', 'tentative', 'age', 's1', 's2', 's3'];
const BOND_TERM = ['lower', 'upper', 'offLower', 'offUpper'];

const RATES = [
    'id', 'day', 'p', 's', 'tentative', 'age', 's1', 's2', 's3',
    'upper1', 'upper2', 'upper3', 'lower1', 'lower2', 'lower3',
];
const BANDS = [
    'id', 'day',
    ...TERMS.flatMap((term) => ['k', 'rrcl', 'rrch', 'lower', 'upper'].map((name) => `${name}_${term}`)),
];
const MOVE = ['id', 'side', 'count', 'range1', 'range2', 'range3', 'band0', 'band1', 'band2'];

const LEVEL = ['none', 'requirement', 'minimum', 'maximum'];
/** The reasons of a message in their order, each with the words that its numbers stand for, as `why` says them. */
const REASONS = {
    price: ['none', 'close', 'bid', 'ask', 'yesterday'],
    weight: ['none', 'zero', 'up', 'down'],
    replacement: ['none', 'yes', 'no'],
    tentative: ['none', 'rose', 'fell', 'waited', 'level'],
    level1: LEVEL,
    level2: LEVEL,
    level3: LEVEL,
};

/** The calls that are answered with a record. */
export const RECORD_CALLS = new Set(['evaluate', 'move', 'open', 'outside', 'notice', 'withdraw', 'read']);

/** Names for numbers, in their order. */
function named(names, numbers) {
    if (numbers.length !== names.length) {
        throw new Error(`${names.length} numbers were due, and ${numbers.length} came`);
    }
    /** @type {Object<string, any>} */
    const made = {};
    for (let at = 0; at < names.length; at += 1) made[names[at]] = Number(numbers[at]);
    return made;
}

/** Numbers that come in groups, each group with the same names. */
function groups(names, numbers) {
    const made = [];
    for (let at = 0; at < numbers.length; at += names.length) {
        made.push(named(names, numbers.slice(at, at + names.length)));
    }
    return made;
}

/**
 * The answer of `evening` to a line.
 * @param {string} call the first word of the line
 * @param {string} answer the line that was answered
 * @returns {Object<string, any>} `kind` is 'admitted', 'record', 'quote', 'interest', 'bond', 'refused' or 'bad', or
 *     'heading' where nothing was answered
 */
export function answerOf(call, answer) {
    const [verdict, ...numbers] = wordsOf(answer);
    if (verdict === undefined) return { kind: 'heading' };
    if (verdict === 'bad') return { kind: 'bad', line: Number(numbers[0]) };
    if (verdict !== '0') return { kind: 'refused', number: Number(verdict) };
    if (call === 'admit') return { kind: 'admitted' };
    if (RECORD_CALLS.has(call)) return { kind: 'record', ...named(RECORD, numbers) };
    if (call === 'quote') return { kind: 'quote', ...named(['top', 'bottom'], numbers) };
    if (call === 'interest') {
        const [lower, upper, ...behind] = numbers;
        return { kind: 'interest', lower: Number(lower), upper: Number(upper), maturities: groups(MATURITY, behind) };
    }
    if (call === 'bond') {
        const first = numbers.slice(0, BOND.length);
        return { kind: 'bond', ...named(BOND, first), terms: groups(BOND_TERM, numbers.slice(BOND.length)) };
    }
    throw new Error(`there is no call '${call}'`);
}

const LOOKED_AT = ['p1', 'p2', 's', 's1'].map((name) => ({ name, place: RECORD.indexOf(name) + 1 }));
const LOOKED_AT_MOST = Math.max(...LOOKED_AT.map(({ place }) => place)) + 1;

/** The figures of a record's answer that a move is held against, and no others: a year has many days. */
export function briefOf(answer) {
    const words = answer.split(' ', LOOKED_AT_MOST);
    const [p1, p2, s, s1] = LOOKED_AT.map(({ place }) => Number(words[place]));
    return { p1, p2, s, s1 };
}

/** The numbers of an accepted admission's line. */
export function admissionOf(line) {
    return named(ADMISSION, wordsOf(line).slice(1));
}

/** The first four numbers of an evaluation's line: the days off before (b) and ahead (m) stand in no answer. */
export function dayOf(line) {
    return named(['id', 'day', 'b', 'm'], wordsOf(line).slice(1, 5));
}

/** The figures that decided: the move, the volatility before, the root, the replacement, the volatility now, and t. */
export const FIGURES = ['r', 's0', 'x', 'y', 's', 't'];

/**
 * The answer of `why` to an evaluation: the reasons by their names, or the place at fault.
 * @param {string} answer
 * @returns {Object<string, any>} `kind` is 'reasons', with price, weight, replacement, tentative, level1 to level3 and,
 *   of a share that is modelled, `figures` by their names in FIGURES; 'fault', with its number, `at` ('row', 'term',
 *   'field' or 'none') and `which`; or 'bad', with its line
 */
export function reasonsOf(answer) {
    const [verdict, ...words] = wordsOf(answer);
    if (verdict === 'bad') return { kind: 'bad', line: Number(words[0]) };
    if (verdict !== '0') {
        const fault = { kind: 'fault', number: Number(verdict), at: words[0] ?? 'none' };
        return words.length > 1 ? { ...fault, which: Number(words[1]) } : fault;
    }
    /** @type {Object<string, any>} */
    const reasons = { kind: 'reasons' };
    const figuresAt = words.indexOf('figures');
    const ends = figuresAt < 0 ? words.length : figuresAt;
    for (let at = 0; at + 1 < ends; at += 2) reasons[words[at]] = words[at + 1];
    if (figuresAt >= 0) reasons.figures = named(FIGURES, words.slice(figuresAt + 1));
    return reasons;
}

/** The words that the numbers of a message's reasons stand for. */
function reasonsIn(numbers) {
    const names = Object.keys(REASONS);
    const { id, day, ...given } = named(['id', 'day', ...names], numbers);
    return { id, day, ...Object.fromEntries(names.map((name) => [name, REASONS[name][given[name]]])) };
}

/**
 * A line of `listen`.
 * @param {string} line
 * @returns {Object<string, any>} `kind` is its first word
 */
export function heardOf(line) {
    const [kind, ...numbers] = wordsOf(line);
    switch (kind) {
    case 'statics': return { kind, ...named(['id', ...STATICS], numbers) };
    case 'rates': return { kind, ...named(RATES, numbers) };
    case 'bands': return { kind, ...named(BANDS, numbers) };
    case 'move': return { kind, ...named(MOVE, numbers) };
    case 'reasons': return { kind, ...reasonsIn(numbers) };
    case 'begin': return { kind, ...named(['version'], numbers) };
    case 'end': return { kind, ...named(['count', 'sum'], numbers) };
    case 'session': return { kind, ...named(['id', 'day'], numbers) };
    case 'unended': return { kind, ...named(['count'], numbers) };
    case 'unknown': return { kind, ...named(['which', 'length'], numbers) };
    case 'refused': return { kind, ...named(['number', 'offset'], numbers) };
    default: throw new Error(`listen has no line '${kind}'`);
    }
}
