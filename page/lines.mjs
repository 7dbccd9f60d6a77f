// A form's values as a line of the evening's text, a line as a form's values, and the fields that a refusal is about.
// All goes over the list of fields.mjs.
import { callOf, mustBe, rangeOf, wordOf } from './fields.mjs';
import { takenBy } from './places.mjs';
import { refusals } from './refusals.mjs';

/**
 * @typedef {import('./fields.mjs').Call} Call
 * @typedef {import('./fields.mjs').Field} Field
 * @typedef {Record<string, string>} Values  What is typed in each field, by its name.
 * @typedef {{ values: Values, rows: Values[] }} Form  A call's fields, and its rows in their order.
 * @typedef {{ name: string, label: string, row?: number, text: string, range?: string }} Fault
 *     The field at fault (of a row, counted from 1 as `why` does), and what it must be; its range where that is no part
 *     of the text and is to be named.
 */

/** A form with nothing typed. @returns {Form} */
export const emptyForm = (/** @type {Call} */ call) => ({ values: emptyValues(call.fields), rows: [] });

/** @returns {Values} */
export const emptyValues = (/** @type {Field[]} */ fields) => Object.fromEntries(fields.map(({ name }) => [name, '']));

/** A fault as a sentence. */
export function sentenceOf(/** @type {Fault} */ { name, label, row, text, range }, rowLabel = 'Row') {
    const where = row === undefined ? '' : `${rowLabel} ${row}: `;
    const inRange = range === undefined ? '' : `; its range is ${range}`;
    return `${where}${label}${label === name ? '' : ` (${name})`} ${text}${inRange}.`;
}

/**
 * The words of one group of fields, and what is at fault in it. A field that is filled in place of others stands for
 * them.
 * @param {Field[]} fields
 * @param {import('./fields.mjs').Order[]} orders
 * @param {Values} values
 * @param {number} [row]
 */
function judged(fields, orders, values, row) {
    /** @type {Record<string, string | undefined>} */
    const words = {};
    /** @type {Fault[]} */
    const faults = [];
    const instead = new Set(fields.flatMap((field) => (values[field.name] ?? '').trim() ? field.instead ?? [] : []));
    const named = (/** @type {string} */ at) => /** @type {Field} */ (fields.find(({ name }) => name === at));
    const blame = (/** @type {string} */ at, /** @type {string} */ text) => {
        faults.push({ name: at, label: named(at).label, row, text });
    };
    for (const field of fields) {
        const typed = values[field.name];
        if (instead.has(field.name)) {
            words[field.name] = '';
            if ((typed ?? '').trim() !== '') blame(field.name, 'must be empty beside a pair');
            continue;
        }
        const { word, fault } = wordOf(field, typed);
        words[field.name] = word;
        if (fault !== undefined) blame(field.name, fault);
    }
    for (const { at, needs, holds, text } of orders) {
        if (needs.some((name) => !words[name] || faults.some((fault) => fault.name === name))) continue;
        const numbers = needs.flatMap((name) => named(name).kind.numbers(String(words[name])));
        if (!holds(...numbers)) blame(at, text);
    }
    return { words, faults };
}

/** @returns {Fault[]} */
function countFaults(/** @type {import('./fields.mjs').Rows} */ { label, least, most }, /** @type {number} */ count) {
    if (least <= count && count <= most) return [];
    return [{ name: label, label, text: `must stand ${least} to ${most} times, and stands ${count} times` }];
}

/** The rows in which a field is not greater than in the row before. @returns {Fault[]} */
function ascendingFaults(/** @type {Field} */ { name, label }, /** @type {(string | undefined)[]} */ words) {
    return words.flatMap((word, at) => {
        const before = words[at - 1];
        const rises = !word || !before || BigInt(before) < BigInt(word);
        return rises ? [] : [{ name, label, row: at + 1, text: 'must be above that of the one before' }];
    });
}

/**
 * The line of a form, and what is at fault in it. There is no line where a value spells no number; a number out of its
 * range stands in the line, and the program refuses it.
 * @param {Call} call
 * @param {Form} form
 * @returns {{ line: string | undefined, faults: Fault[] }}
 */
export function lineOf(call, form) {
    const head = judged(call.fields, call.orders, form.values);
    const { rows } = call;
    const tail = rows === undefined
        ? []
        : form.rows.map((values, at) => judged(rows.fields, rows.orders, values, at + 1));
    const faults = [head, ...tail].flatMap((part) => part.faults);
    if (rows !== undefined) faults.push(...countFaults(rows, form.rows.length));
    const ascends = rows?.fields.find(({ name }) => name === rows.ascends);
    if (ascends !== undefined) faults.push(...ascendingFaults(ascends, tail.map(({ words }) => words[ascends.name])));
    const words = [head, ...tail].flatMap((part) => Object.values(part.words));
    const line = words.includes(undefined) ? undefined : [call.word, ...words.filter((word) => word !== '')].join(' ');
    return { line, faults };
}

/**
 * The values that the words of a line have, from the first on. A pair fills its own field, and leaves those empty that
 * it stands for; a word that is no number leaves undefined.
 * @param {Field[]} fields
 * @param {string[]} words  Those that are taken are removed.
 * @returns {Values | undefined}
 */
function valuesOf(fields, words) {
    const values = emptyValues(fields);
    for (const field of takenBy(fields, words)) {
        const word = words.shift();
        const looks = field.instead === undefined ? /^-?\d+$/ : /^-?\d+\/-?\d+$/;
        if (word === undefined || !looks.test(word)) return undefined;
        const exact = word.split('/').map((number) => String(BigInt(number))).join('/');
        values[field.name] = field.kind.typed(exact);
    }
    return values;
}

/**
 * The call of a line with its form, or in words why it has none.
 * @param {string} line
 * @returns {{ call: Call, form: Form } | { fault: string }}
 */
export function formOf(line) {
    const [word = '', ...words] = line.split(/[ \t\r]+/).filter((piece) => piece !== '');
    const call = callOf(word);
    if (word === '') return { fault: 'The line is blank.' };
    if (word.startsWith('#')) return { fault: 'The line is a heading, which has no form.' };
    if (call === undefined) return { fault: `'${word}' is no call.` };
    const values = valuesOf(call.fields, words);
    if (values === undefined) return { fault: `A number of '${word}' is missing, or a word is no number.` };
    if (call.rows === undefined && words.length > 0) return { fault: `'${word}' takes no further '${words[0]}'.` };
    /** @type {Values[]} */
    const rows = [];
    while (call.rows !== undefined && words.length > 0) {
        const row = valuesOf(call.rows.fields, words);
        if (row === undefined) return { fault: `${call.rows.label} ${rows.length + 1} is not whole.` };
        rows.push(row);
    }
    return { call, form: { values, rows } };
}

// ---- refusals

// The refusals that a form's own ranges and orders can tell the field of; the others are about the table.
const OF_THE_FORM = [4, 6, 14, 16, 17, 20];
const UNKNOWN_PAIR = 'is not of the three latest accepted interest lines, or has a band out of range';

/**
 * The field that the program names, with its range, and behind it the others that are at fault by the page's own list.
 * @param {Field} named
 * @param {Fault[]} faults
 */
function namedFirst(named, faults) {
    const { text = mustBe(named) } = faults.find(({ name }) => name === named.name) ?? {};
    const range = text === mustBe(named) ? undefined : rangeOf(named);
    const others = faults.filter(({ name }) => name !== named.name);
    return [{ name: named.name, text, range }, ...others.map((other) => ({ name: other.name, text: other.text }))];
}

/**
 * The fields of a form that a refusal is about: the number of an admission that is named first; else those at fault by
 * their own ranges and orders, in the row or term that is named; else those that the refusal's number is about.
 * @param {import('./refusals.mjs').Refused} refused
 * @param {Call} call
 * @param {Form} form
 * @returns {{ name: string, row?: number, text?: string, range?: string }[]}
 */
export function fieldsOf({ number = 0, row, term, field }, call, form) {
    const ofTerm = [`K${term}`, `RRCL${term}`, `RRCH${term}`];
    const aPair = `PAIR${term}`;
    const faults = lineOf(call, form).faults.filter((fault) => (
        row !== undefined ? fault.row === row : term === undefined || [...ofTerm, aPair].includes(fault.name)));
    if (field !== undefined) return namedFirst(call.fields[field - 1], faults);
    if (OF_THE_FORM.includes(number) && faults.length > 0) {
        return faults.map(({ name, row: at, text }) => ({ name, row: at, text }));
    }
    if (term !== undefined && number === 6 && form.values[aPair]) return [{ name: aPair, text: UNKNOWN_PAIR }];
    const about = term === undefined ? refusals[number]?.fields ?? [] : ofTerm;
    const fields = row === undefined ? call.fields : call.rows?.fields ?? [];
    return fields.filter(({ name }) => about.includes(name)).map(({ name }) => ({ name, row }));
}
