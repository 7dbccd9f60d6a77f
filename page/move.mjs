// The exact move, and whether rounding would have hidden it. `why` says the move rounded up to a millionth; the exact
// one is no answer of a program, and stands here as a fraction, made of the evaluations in the answers.

const MILLION = 1000000n;
const BP_IN_MILLIONTHS = 100n;

/**
 * @typedef {{over: bigint, under: bigint, from: number}} Move  Millionths as a fraction, and the evaluation moved from.
 */

/**
 * The exact move in millionths, as a fraction: the greater of those from the two earlier evaluations (7.1).
 * @param {number} price the evaluation
 * @param {number[]} earlier the earlier evaluations
 * @returns {Move | null}
 */
export function exactMove(price, earlier) {
    let greatest = null;
    for (const from of earlier) {
        if (!from) return null;
        const away = BigInt(price) - BigInt(from);
        const move = { over: (away < 0n ? -away : away) * MILLION, under: BigInt(from), from };
        if (greatest === null || move.over * greatest.under > greatest.over * move.under) greatest = move;
    }
    return greatest;
}

/** Whether a move is above a whole number of millionths. */
export function isAbove(move, millionths) {
    return move.over > BigInt(millionths) * move.under;
}

/** A move, rounded to the nearest millionth. */
export const nearestOf = (/** @type {Move} */ move) => (2n * move.over + move.under) / (2n * move.under);

/** Whether a move is above so many millionths, and would not be if it were rounded first. */
const hides = (move, millionths) => isAbove(move, millionths) && nearestOf(move) <= BigInt(millionths);

/**
 * Whether rounding the move to the nearest millionth first would have hidden it: from the volatility before, which
 * chooses the weight, or from the last rate of level 1, which lets the replacement in.
 * @param {{move: Move|null, before: Object<string, any>|null, reasons: Object<string, any>|null,
 *     statics: Object<string, any>|null}} day
 * @returns {{volatility: boolean, rate: boolean}}
 */
export function hiddenByRounding({ move, before, reasons, statics }) {
    const none = { volatility: false, rate: false };
    if (move === null || before === null) return none;
    if (reasons !== null) {
        return {
            volatility: reasons.weight === 'up' && hides(move, before.s),
            rate: reasons.replacement === 'yes' && hides(move, BigInt(before.s1) * BP_IN_MILLIONTHS),
        };
    }
    // A broadcast of the old form carries no reasons: of a share that is modelled, the comparison with the volatility
    // is shown by itself.
    return statics?.isewma === 1 ? { ...none, volatility: hides(move, before.s) } : none;
}
