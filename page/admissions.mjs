// Admissions from a file of comma-separated values, a security a row. The first row names the columns, in any order:
// the names of docs/EVENING.md, with the unit in brackets or without. Values are typed as in the form, with a point. A
// file that is parted by semicolons comes from a place that writes a comma in a number, and there one is the point.
// Whether an admission is accepted, and which number of it is at fault, says the program.
import { callOf } from './fields.mjs';
import { lineOf, sentenceOf } from './lines.mjs';

/**
 * @typedef {import('./heard.mjs').Heard} Heard
 * @typedef {import('./lines.mjs').Values} Values
 * @typedef {{ at: number, column?: string, text: string }} Fault  The row of the file, counted from 1, the column as a
 *     spreadsheet has it and by its name, and what is wrong.
 * @typedef {{ at: number, values: Values, line: string }} Row  A row whose cells all spell numbers, and its line.
 */

const admit = /** @type {import('./fields.mjs').Call} */ (callOf('admit'));
const OUT_OF_RANGE = 4;

/** The first line of such a file. */
export function columnsOfAdmissions() {
    return admit.fields.map(({ name, kind }) => {
        const unit = kind.names?.join('/') ?? kind.unit;
        return unit === '' ? name : `${name} (${unit})`;
    }).join(',');
}

/** A file of these admissions; of none it is the template. @param {import('./lines.mjs').Values[]} admissions */
export function admissionsText(admissions) {
    const lines = admissions.map((values) => admit.fields.map(({ name }) => values[name] ?? '').join(','));
    return [columnsOfAdmissions(), ...lines].map((line) => `${line}\r\n`).join('');
}

/** The cells of a line. A cell in quotes may hold the separator, and a quote doubled. @returns {string[]} */
function cellsOf(/** @type {string} */ line, /** @type {string} */ separator) {
    const cell = new RegExp(`${separator}(?: *"((?:[^"]|"")*)" *(?=${separator}|$)|([^${separator}]*))`, 'g');
    return [...`${separator}${line}`.matchAll(cell)]
        .map(([, quoted, plain]) => (quoted?.replaceAll('""', '"') ?? plain).trim());
}

/** What is wrong with the columns, by name. @returns {string[]} */
function columnFaults(/** @type {string[]} */ names) {
    const known = admit.fields.map(({ name }) => name);
    return [
        ...names.filter((name) => !known.includes(name)).map((name) => `There is no column '${name}'.`),
        ...known.filter((name) => !names.includes(name)).map((name) => `The column '${name}' is missing.`),
        ...known.filter((name) => names.indexOf(name) !== names.lastIndexOf(name))
            .map((name) => `The column '${name}' stands twice.`),
    ];
}

const LETTERS = 26;

/** A column as a spreadsheet names it: A to Z, then AA. @returns {string} */
export function letterOf(/** @type {number} */ index) {
    const before = index < LETTERS ? '' : letterOf(Math.floor(index / LETTERS) - 1);
    return before + String.fromCharCode('A'.charCodeAt(0) + index % LETTERS);
}

/** What is wrong in a row, with the column of each field. @returns {Fault[]} */
function faultsOf(/** @type {number} */ at, /** @type {string[]} */ names,
    /** @type {{ name: string, text?: string, range?: string }[]} */ faults) {
    return faults.map(({ name, text = '', range }) => {
        const label = admit.fields.find((field) => field.name === name)?.label ?? name;
        const column = `${letterOf(names.indexOf(name))}, ${name}`;
        return { at, column, text: sentenceOf({ name, label, text, range }) };
    });
}

/**
 * The rows of a file that are lines of the evening's text, and what is wrong with the others.
 * @param {string} text
 * @returns {{ names: string[], rows: Row[], faults: Fault[] }}
 */
function rowsOf(text) {
    const [first, ...others] = text.replace(/^\uFEFF/, '').split(/\r\n|\n/);
    const separator = first.includes(';') ? ';' : ',';
    const names = cellsOf(first, separator).map((cell) => cell.replace(/\s*\(.*$/, '').toUpperCase());
    /** @type {Fault[]} */
    const faults = columnFaults(names).map((fault) => ({ at: 1, text: fault }));
    /** @type {Row[]} */
    const rows = [];
    if (faults.length > 0) return { names, rows, faults };
    others.forEach((other, index) => {
        const at = index + 2;
        if (other.trim() === '') return;
        const cells = cellsOf(other, separator);
        if (cells.length !== names.length) {
            faults.push({ at, text: `The row has ${cells.length} cells, and there are ${names.length} columns.` });
            return;
        }
        const typed = separator === ';' ? cells.map((cell) => cell.replace(/^(-?\d+),(\d+)$/, '$1.$2')) : cells;
        const values = Object.fromEntries(names.map((name, column) => [name, typed[column]]));
        const judged = lineOf(admit, { values, rows: [] });
        if (judged.line === undefined) faults.push(...faultsOf(at, names, judged.faults));
        else rows.push({ at, values, line: judged.line });
    });
    return { names, rows, faults };
}

/**
 * The admissions of a file, with the program's answers to their lines. A row with a number at fault gives none.
 * @param {string} text
 * @param {(lines: string[]) => Promise<Heard[]>} ask  Asks the program, and keeps nothing.
 * @returns {Promise<{ admissions: (Row & { heard: Heard })[], faults: Fault[] }>}
 */
export async function admissionsOf(text, ask) {
    const { names, rows, faults } = rowsOf(text);
    const heard = await ask(rows.map(({ line }) => line));
    const told = rows.map((row, index) => ({ ...row, heard: heard[index] }));
    const isFaulty = (/** @type {Row & { heard: Heard }} */ one) => one.heard.refused?.number === OUT_OF_RANGE;
    const refused = told.filter(isFaulty).flatMap((one) => faultsOf(one.at, names, one.heard.faults ?? []));
    return {
        admissions: told.filter((one) => !isFaulty(one)),
        faults: [...faults, ...refused].sort((one, other) => one.at - other.at),
    };
}
