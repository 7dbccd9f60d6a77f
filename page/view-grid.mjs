// Fields that come in rows: the rows of a day, key maturities, cash flows, and the three terms. A column's head has the
// label and the range; on a phone each row is a block of its own.
import { button, el } from './element.mjs';
import { hintOf, makeControl } from './view-field.mjs';

/**
 * @typedef {import('./view-field.mjs').Control} Control
 * @typedef {import('./view-field.mjs').Typing} Typing
 * @typedef {import('./fields.mjs').Field} Field
 * @typedef {{ label: string, name: string, hint: string, meaning: string }} Head
 */

/** @returns {HTMLElement} */
function headOf(/** @type {string} */ id, /** @type {Head[]} */ heads, /** @type {string} */ corner) {
    const cell = (/** @type {Head} */ { label, name, hint, meaning }, /** @type {number} */ at) => (
        el('th', { scope: 'col', title: meaning }, label, ' ', el('span', { class: 'name' }, name),
            el('span', { class: 'hint', id: `${id}-hint-${at}` },
                hint, el('span', { class: 'apart' }, `. ${meaning}`))));
    return el('thead', {}, el('tr', {}, el('th', { scope: 'col' }, corner), ...heads.map(cell)));
}

/**
 * A row of controls.
 * @param {Field[]} fields
 * @param {{ id: string, label: string, heads: Head[], hints: string, typing: Typing, row?: number }} how
 */
function rowOf(fields, { id, label, heads, hints, typing, row }) {
    const controls = fields.map((field, at) => makeControl(field, {
        id: `${id}-${field.name}`,
        typing,
        hint: `${hints}-hint-${at}`,
        attributes: { 'aria-label': `${label}, ${heads[at].label}`, 'data-row': row },
    }));
    const cells = controls.map(({ input, fault }, at) => (
        el('td', { 'data-label': heads[at].label, 'data-hint': heads[at].hint }, input, fault)));
    return { controls, node: el('tr', {}, el('th', { scope: 'row' }, label), ...cells) };
}

const TERM_LABELS = ['Days', 'Pair', 'Lower repo limit', 'Upper repo limit'];
const INSTEAD = 'in place of the limits: ';
const TERM_NAMES = ['K', 'YM/YN', 'RRCL', 'RRCH'];
const PER_TERM = TERM_LABELS.length;

/** The three terms of an evaluation or a bond. @returns {{ node: HTMLElement, controls: Control[] }} */
export function makeTerms(/** @type {Field[]} */ fields, /** @type {string} */ id, /** @type {Typing} */ typing) {
    const heads = TERM_LABELS.map((label, at) => ({
        label,
        name: TERM_NAMES[at],
        hint: (fields[at].instead === undefined ? '' : INSTEAD) + hintOf(fields[at], typing),
        meaning: fields[at].meaning,
    }));
    const rows = [0, 1, 2].map((term) => rowOf(fields.slice(term * PER_TERM, (term + 1) * PER_TERM), {
        id, label: `Term ${term}`, heads, hints: `${id}-terms`, typing,
    }));
    const node = el('div', { class: 'scroll' }, el('table', { class: 'grid' },
        el('caption', { class: 'apart' }, 'The three terms'),
        headOf(`${id}-terms`, heads, 'Term'), el('tbody', {}, ...rows.map((row) => row.node))));
    return { node, controls: rows.flatMap(({ controls }) => controls) };
}

/** What several rows are called. */
export function severalOf(/** @type {import('./fields.mjs').Rows} */ { label }) {
    return label.endsWith('y') ? `${label.slice(0, -1)}ies` : `${label}s`;
}

/**
 * Rows that can be added and removed.
 * @param {import('./fields.mjs').Rows} rows
 * @param {string} id
 * @param {Typing} typing
 * @param {() => void} changed  Is told when there are more or fewer rows.
 */
export function makeRows(rows, id, typing, changed) {
    const heads = rows.fields.map((field) => ({
        label: field.label, name: field.name, hint: hintOf(field, typing), meaning: field.meaning,
    }));
    const name = rows.label.toLowerCase();
    const body = el('tbody');
    const add = button(`Add a ${name}`, () => {
        append();
        changed();
        made.at(-1)?.controls[0].input.focus();
    }, { id: `${id}-add-row`, 'data-add': '' });
    const table = el('table', { class: 'grid' },
        el('caption', { class: 'apart' }, severalOf(rows)), headOf(`${id}-rows`, heads, rows.label), body);
    const frame = el('div', { class: 'scroll' }, table);
    /** @type {{ controls: Control[], node: HTMLElement }[]} */
    let made = [];

    function shown() {
        frame.hidden = made.length === 0;
        add.disabled = made.length >= rows.most;
    }

    function append(/** @type {import('./lines.mjs').Values} */ values = {}) {
        const row = made.length + 1;
        const one = rowOf(rows.fields, {
            id: `${id}-${row}`, label: `${rows.label} ${row}`, heads, hints: `${id}-rows`, typing, row,
        });
        for (const { field, set } of one.controls) set(values[field.name] ?? '');
        const words = `Remove ${name} ${row}`;
        one.node.append(el('td', { class: 'remove' },
            button('×', () => remove(row - 1), { 'data-remove': row, 'aria-label': words, title: words })));
        made.push(one);
        body.append(one.node);
        shown();
    }

    const read = () => made.map(({ controls }) => (
        Object.fromEntries(controls.map(({ field, value }) => [field.name, value()]))));

    function fill(/** @type {import('./lines.mjs').Values[]} */ all) {
        body.replaceChildren();
        made = [];
        all.forEach((values) => append(values));
        shown();
    }

    // The rows behind it get other numbers, so all are made anew.
    function remove(/** @type {number} */ at) {
        fill(read().filter((_, which) => which !== at));
        changed();
        const next = body.querySelector(`[data-remove="${Math.min(at + 1, made.length)}"]`) ?? add;
        next.focus();
    }

    shown();
    return { node: el('div', {}, frame, add), read, fill, controls: () => made.map(({ controls }) => controls) };
}
