// Why a day's record is what it is, as a broadcast tells it: its reasons with the figures that its messages have. A
// message has no days off, and not the figures that decided; the evaluation before a stream's first one is not in it.
import { isAbove } from './move.mjs';
import { exactOf, levelSentence, wayOf } from './why-words.mjs';

/**
 * @typedef {import('./why-words.mjs').Day} Day
 * @typedef {import('./why-words.mjs').Figures} Figures
 */

/** What two days of a broadcast show of a move. */
export function heardMoveSentence(/** @type {Day} */ day, /** @type {Figures} */ figures) {
    const { move, record, before } = day;
    const exact = move.over === 0n
        ? `The price did not move from ${figures.roubles(record.p1)} roubles: the exact move is 0 millionths`
        : `The exact move, ${wayOf(day, figures)}, is ${exactOf(move, figures)}`;
    const how = isAbove(move, before.s) ? 'above' : 'not above';
    return `${exact}, ${how} the volatility before, ${figures.whole(before.s)}.`;
}

/** Which weight was taken; why, where no sentence before it says what the move is. */
function weightSentence(/** @type {Day} */ { reasons, statics, move }, /** @type {Figures} */ figures) {
    const of = (/** @type {string} */ name) => (statics === null ? '' : ` of ${figures.perCent(statics[name])}`);
    const taken = (/** @type {string} */ how, /** @type {string} */ weight) => (
        move === null ? `The move is ${how} the volatility before, so the ${weight} was taken.`
            : `So the ${weight} was taken.`);
    switch (reasons.weight) {
    case 'zero': return 'More than one day off lay before, so the move has no weight.';
    case 'up': return taken('above', `upward weight${of('aUp')}`);
    default: return taken('not above', `downward weight${of('aDown')}`);
    }
}

function volatilitySentence(/** @type {Day} */ { record, reasons }, /** @type {Figures} */ figures) {
    const now = figures.volatility(record.s);
    if (reasons.weight === 'zero') return `The volatility stays at ${now}.`;
    if (reasons.replacement === 'yes') {
        return `The volatility is now ${now}, the replacement: the move is above the last rate of level 1, and the ` +
            'move over the multiplier is the greater.';
    }
    return `The volatility is now ${now}, the root of the weighted mean of the squares of the move and the ` +
        'volatility before. No replacement won.';
}

function tentativeSentence(/** @type {Day} */ { record, before, reasons }, /** @type {Figures} */ figures) {
    const now = figures.perCent(record.tentative);
    const from = before === null ? '' : `from ${figures.perCent(before.tentative)} `;
    switch (reasons.tentative) {
    case 'rose': return `The tentative rate rose at once, ${from}to ${now}.`;
    case 'fell': return `The tentative rate fell one step, ${from}to ${now}, since its wait was over.`;
    case 'waited': return `The tentative rate waits at ${now} before it falls.`;
    default: return `The tentative rate is at its step already and stays at ${now}.`;
    }
}

/** The sentences of a modelled share's reasons, behind those on the price and the move. */
export function heardReasons(/** @type {Day} */ day, /** @type {Figures} */ figures) {
    return [
        weightSentence(day, figures),
        volatilitySentence(day, figures),
        tentativeSentence(day, figures),
        ...[1, 2, 3].map((level) => levelSentence(level, day, figures)),
    ];
}
