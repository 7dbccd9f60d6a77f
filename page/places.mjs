// Where in a line a number stands: which field each word is of, and the place that a refusal names, in words and as a
// part of the line.
import { callOf } from './fields.mjs';

/**
 * @typedef {import('./fields.mjs').Field} Field
 * @typedef {{ name: string, row?: number }} Mark  A field, of a row counted from 1 where it is a row's.
 * @typedef {{ start: number, end: number }} Span  A part of a line.
 */

const admitted = /** @type {import('./fields.mjs').Call} */ (callOf('admit')).fields;

/** The words of a line, with where they stand. A blank is what it is to the programs (answers.mjs). */
const wordsIn = (/** @type {string} */ line) => [...line.matchAll(/[^ \t\r]+/g)]
    .map(({ 0: word, index = 0 }) => ({ word, start: index, end: index + word.length }));

/**
 * The fields that have a word each, in the order of the words. A pair has a word of its own, and leaves none to the
 * fields that it stands for.
 * @param {Field[]} fields
 * @param {string[]} words
 * @returns {Field[]}
 */
export function takenBy(fields, words) {
    const instead = new Set();
    /** @type {Field[]} */
    const taken = [];
    for (const field of fields) {
        const isPair = field.instead !== undefined;
        if (instead.has(field.name) || (isPair && !words[taken.length]?.includes('/'))) continue;
        taken.push(field);
        field.instead?.forEach((name) => instead.add(name));
    }
    return taken;
}

/**
 * The part of a line from the first to the last of some fields; null where it has none of them.
 * @param {string} line
 * @param {Mark[]} marks
 * @returns {Span | null}
 */
export function spanOf(line, marks) {
    const [first, ...words] = wordsIn(line);
    const call = callOf(first?.word ?? '');
    if (call === undefined) return null;
    const head = takenBy(call.fields, words.map(({ word }) => word));
    const ofRow = call.rows?.fields ?? [];
    const found = marks.map(({ name, row }) => {
        const at = (row === undefined ? head : ofRow).findIndex((field) => field.name === name);
        return words[row === undefined || at < 0 ? at : head.length + (row - 1) * ofRow.length + at];
    }).filter((word) => word !== undefined);
    if (found.length === 0) return null;
    return { start: Math.min(...found.map(({ start }) => start)), end: Math.max(...found.map(({ end }) => end)) };
}

/**
 * The place that a refusal names, in words; '' where it names none.
 * @param {{ row?: number, term?: number, field?: number }} refused
 */
export function placeOf({ row, term, field }) {
    if (field !== undefined) {
        const { label, name } = admitted[field - 1];
        return `${label} (${name}), number ${field} of the line`;
    }
    return row !== undefined ? `row ${row}` : term !== undefined ? `term ${term}` : '';
}
