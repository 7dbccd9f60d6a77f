// What the sentences on why have in common, whether an evening's text or a broadcast gives the reasons.

/**
 * @typedef {ReturnType<typeof import('./security.mjs').dayAt>} Day
 * @typedef {ReturnType<typeof import('./figures.mjs').makeFigures>} Figures
 */

/** A number of days in words: 1 day, 2 days. */
export const daysOf = (/** @type {number} */ count, /** @type {Figures} */ figures, kind = '') => (
    `${figures.whole(count)} ${kind}${count === 1 ? 'day' : 'days'}`);

/** Which figure set the price. */
export const PRICE = {
    close: (price) =>
        `The close set the price: ${price} roubles, the mean of the rows that have trades, by their volumes.`,
    bid: (price) =>
        `The greatest bid set the price: ${price} roubles. It is the middle one of bid, close and ask, or, with no ` +
        'ask, the greater of bid and close.',
    ask: (price) =>
        `The least ask set the price: ${price} roubles. It is the middle one of bid, close and ask, or, with no bid, ` +
        'the lesser of ask and close.',
    yesterday: (price) => `No row has a trade: the price is the last evaluation, ${price} roubles.`,
};

/** The exact move in millionths, as a fraction and with its first places. */
export function exactOf(/** @type {import('./move.mjs').Move} */ move, /** @type {Figures} */ figures) {
    const dots = move.over % move.under === 0n ? '' : ` (${figures.places(move)})`;
    return `${figures.fraction(move)} millionths${dots}`;
}

/** From which evaluation to which. The move is the greater of two; mostly it is from the last evaluation. */
export function wayOf(/** @type {Day} */ { move, record, before }, /** @type {Figures} */ figures) {
    const [from, to] = [figures.roubles(move.from), `${figures.roubles(record.p1)} roubles`];
    return move.from === before.p1 ? `from ${from} to ${to}`
        : `from ${from} roubles, the evaluation before the last one, to ${to}`;
}

/** What set the rate of a level. A broadcast may lack the statics, and has no days off. */
export function levelSentence(/** @type {number} */ level, /** @type {Day} */ day, /** @type {Figures} */ figures) {
    const { record, reasons, statics, m } = day;
    const rate = figures.perCent(record[`s${level}`]);
    switch (reasons[`level${level}`]) {
    case 'maximum': return `Rate ${level} is held at the maximum, ${rate}: the requirement is above it.`;
    case 'minimum': return `Rate ${level} is its minimum, ${rate}.`;
    default: {
        if (statics === null) return `Rate ${level} is ${rate}, the least step that covers the requirement.`;
        const ahead = m > 0 ? `, with ${daysOf(m, figures)} off ahead` : '';
        return `Rate ${level} is ${rate}, the least step of ${figures.perCent(statics.h)} that covers the ` +
            `requirement of ${daysOf(statics[`rh${level}`], figures)}${ahead}.`;
    }
    }
}
