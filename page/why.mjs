// Why a day's record is what it is, in sentences that can be read out to a member: the words of the program `why` with
// the figures that decided, which it says too, or the reasons of a broadcast. Only the exact move, where rounding would
// have hidden it, is the page's.
import { hiddenByRounding, nearestOf } from './move.mjs';
import { heardMoveSentence, heardReasons } from './why-heard.mjs';
import { PRICE, daysOf, exactOf, levelSentence, wayOf } from './why-words.mjs';

/**
 * @typedef {import('./why-words.mjs').Day} Day
 * @typedef {import('./why-words.mjs').Figures} Figures
 */

// ---- the move

function moveSentence(/** @type {Day} */ day, /** @type {Figures} */ figures) {
    const { move, record, reasons, statics, b } = day;
    const { r, s0 } = reasons.figures;
    const rounded = move.over % move.under === 0n ? '' : ' (rounded up)';
    const moved = r === 0
        ? `The price did not move from ${figures.roubles(record.p1)} roubles`
        : `The price moved by ${figures.volatility(r)}${rounded}, ${wayOf(day, figures)}`;
    const before = `the volatility before, ${figures.volatility(s0)}`;
    switch (reasons.weight) {
    case 'zero': return `${moved}. ${daysOf(b, figures)} off lay before, so the move has no weight.`;
    case 'up':
        return `${moved}. That is above ${before}, so the upward weight of ${figures.perCent(statics.aUp)} was taken.`;
    default:
        return `${moved}. That is not above ${before}, so the downward weight of ` +
            `${figures.perCent(statics.aDown)} was taken.`;
    }
}

/** Here the millionths are the point. */
function hiddenSentence(hidden, /** @type {Day} */ { move, before, reasons }, /** @type {Figures} */ figures) {
    const against = hidden.volatility
        ? `the volatility before is ${figures.whole(reasons?.figures.s0 ?? before.s)} millionths`
        : `the last rate of level 1 is ${figures.perCent(before.s1)}`;
    return `Exactly, the move is ${exactOf(move, figures)}, and ${against}. Rounded to the nearest millionth first ` +
        `it would have been ${figures.whole(nearestOf(move))}, not above that: the move would have been hidden.`;
}

// ---- volatility and rates

const MEAN = 'the root of the weighted mean of the squares of the move and the volatility before';

function volatilitySentence(/** @type {Day} */ { before, reasons, statics }, /** @type {Figures} */ figures) {
    const { x, y, s } = reasons.figures;
    if (reasons.weight === 'zero') return `The volatility stays at ${figures.volatility(s)}.`;
    const now = `The volatility is now ${figures.volatility(s)}`;
    const rate = `the last rate of level 1, ${figures.perCent(before.s1)}`;
    const over = `the move over the multiplier of ${figures.hundredths(statics.q)}`;
    if (reasons.replacement === 'yes') {
        return `${now}, the replacement: the move is above ${rate}, and ${over} is ${figures.volatility(y)}, above ` +
            `${figures.volatility(x)}, ${MEAN}.`;
    }
    const not = y === 0
        ? `There is no replacement, since the move is not above ${rate}`
        : `The replacement, ${over}, is ${figures.volatility(y)} and not above it`;
    return `${now}, ${MEAN}. ${not}.`;
}

function tentativeSentence(/** @type {Day} */ { record, before, reasons, statics }, /** @type {Figures} */ figures) {
    const { t } = reasons.figures;
    const now = figures.perCent(record.tentative);
    const was = figures.perCent(before.tentative);
    const wait = daysOf(statics.wait, figures, 'trading ');
    const covered = reasons.replacement === 'yes'
        ? 'the move itself' : `${figures.hundredths(statics.q)} times the volatility`;
    const asked = `The least step that covers ${covered} is ${figures.whole(t)} basis points, ${figures.perCent(t)}`;
    switch (reasons.tentative) {
    case 'rose': return `${asked}: the tentative rate rose to it at once, from ${was} to ${now}.`;
    case 'fell':
        return `${asked}: the tentative rate fell one step towards it, from ${was} to ${now}, since the wait of ` +
            `${wait} was over.`;
    case 'waited':
        return `${asked}. The tentative rate waits at ${now} before it falls towards it: it has stood for ` +
            `${figures.whole(record.age)} of the ${wait} of the wait.`;
    default: return `${asked}. The tentative rate is at that step already and stays at ${now}.`;
    }
}

/**
 * The sentences of a day, each with whether it is the mark of a move that rounding would have hidden.
 * @param {Day} day
 * @param {Figures} figures
 * @returns {{text: string, mark: boolean}[]}
 */
export function sentencesOf(day, figures) {
    const { record, before, reasons, move } = day;
    const said = [];
    const say = (text, mark = false) => said.push({ text, mark });
    // No evaluation has a price without a reason, but a message may say so.
    if (reasons !== null && reasons.price in PRICE) say(PRICE[reasons.price](figures.roubles(record.p1)));
    if (reasons?.weight === 'none') {
        say('The share is not modelled (isEWMA no): its rates are the minima, its volatility and tentative rate stay.');
        return said;
    }
    const hasFigures = reasons?.figures !== undefined;
    if (move !== null && before !== null) {
        say(hasFigures ? moveSentence(day, figures) : heardMoveSentence(day, figures));
        const hidden = hiddenByRounding(day);
        if (hidden.volatility || hidden.rate) say(hiddenSentence(hidden, day, figures), true);
    }
    if (reasons === null) return said;
    if (!hasFigures) {
        heardReasons(day, figures).forEach((text) => say(text));
        return said;
    }
    say(volatilitySentence(day, figures));
    say(tentativeSentence(day, figures));
    for (const level of [1, 2, 3]) say(levelSentence(level, day, figures));
    return said;
}

/**
 * The figures that decided, with their names and units: in per cent, and as `why` says them.
 * @param {Day} day
 * @param {Figures} figures
 * @returns {[string, string, string][]} none where `why` says none
 */
export function decidingOf({ reasons }, figures) {
    if (reasons?.figures === undefined) return [];
    const { r, s0, x, y, s, t } = reasons.figures;
    /** @returns {[string, string, string]} */
    const millionths = (/** @type {string} */ name, /** @type {number} */ figure) => (
        [name, figures.volatility(figure), `${figures.whole(figure)} millionths`]);
    return [
        millionths('Move', r),
        millionths('Volatility before', s0),
        millionths('Root of the weighted mean', x),
        y === 0 ? ['Replacement', 'none', figures.whole(y)] : millionths('Replacement', y),
        millionths('Volatility now', s),
        ['Least step that covers it', figures.perCent(t), `${figures.whole(t)} basis points`],
    ];
}
