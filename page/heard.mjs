// What became of a line that a person gave: the programs' answers to it, and for a refused one what is wrong in words,
// with the fields, the row or the term at fault.
import { firstWord } from './evening-sheet.mjs';
import { fieldsOf, formOf } from './lines.mjs';
import { spanOf } from './places.mjs';
import { refusedOf } from './refusals.mjs';

/**
 * @typedef {object} Heard
 * @property {string} text  The line.
 * @property {string} call  Its first word.
 * @property {string} answer  Of `evening`.
 * @property {string} why  Of `why`.
 * @property {boolean} accepted
 * @property {import('./refusals.mjs').Refused & { detail?: string }} [refused]  What a refused line says; `detail` says
 *     of one that fills no form why it does not.
 * @property {string[]} [fields]  The names of the fields at fault.
 * @property {ReturnType<fieldsOf>} [faults]  The same with their rows and what they must be.
 */

/** Whether an answer of `evening` is an acceptance; a heading has none, and is kept as an accepted line is. */
export const isAccepted = (/** @type {string} */ answer) => ['', '0'].includes(answer) || answer.startsWith('0 ');

/**
 * @param {string} text
 * @param {import('./telling.mjs').Told} told
 * @returns {Heard}
 */
export function heardOf(text, { answer, why }) {
    const call = firstWord(text);
    const heard = { text, call, answer, why, accepted: isAccepted(answer) };
    // `why` names the row or the term of an evaluation and the number of an admission; both programs answer alike to
    // whatever else is refused.
    const refused = heard.accepted ? undefined : refusedOf(why);
    if (refused === undefined) return heard;
    const read = formOf(text);
    if ('fault' in read) return { ...heard, refused: { ...refused, detail: read.fault }, fields: [], faults: [] };
    const faults = fieldsOf(refused, read.call, read.form);
    return { ...heard, refused, fields: [...new Set(faults.map(({ name }) => name))], faults };
}

/** The part of a refused line that is at fault: the number, the row or the term that is named; null where none is. */
export function faultIn(/** @type {Heard} */ { text, refused, faults = [] }) {
    const isSeveral = refused?.row !== undefined || refused?.term !== undefined;
    return spanOf(text, isSeveral ? faults : faults.slice(0, 1));
}
