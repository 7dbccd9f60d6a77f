// The form of a call, from the list of fields.mjs: fields in groups, the three terms, and the rows at the end.
import { el } from './element.mjs';
import { emptyForm, lineOf } from './lines.mjs';
import { makeField } from './view-field.mjs';
import { makeRows, makeTerms, severalOf } from './view-grid.mjs';

/**
 * @typedef {import('./fields.mjs').Call} Call
 * @typedef {import('./lines.mjs').Form} Form
 * @typedef {import('./view-field.mjs').Control} Control
 * @typedef {import('./view-field.mjs').Typing} Typing
 * @typedef {{ name: string, row?: number, text?: string }} Mark
 */

const TERMS = 'Terms';
const STATICS = {
    RH1: 'Levels and rates',
    XPR: 'Bands and quotes',
    MONITORING: 'What applies',
};

/** A group begins at its first field. @type {Record<string, Record<string, string>>} */
const GROUPS = {
    admit: { ID: 'The security and its last figures', LOT: 'Lot, step and weights', ...STATICS },
    evaluate: { ID: 'The day', K0: TERMS },
    interest: { B: 'The pair of terms', A_UP: 'Weights and steps', LIQ: 'Estimates and rollover rates' },
    bond: { M: 'The bond', K0: TERMS, H: 'Step, multiplier and wait', ...STATICS },
};

/** How many empty rows a form begins with. @type {Record<string, number>} */
const FIRST_ROWS = { evaluate: 1, interest: 1 };

/** @returns {Form} */
function startOf(/** @type {Call} */ call) {
    const length = call.rows === undefined ? 0 : FIRST_ROWS[call.word] ?? 0;
    return { ...emptyForm(call), rows: Array.from({ length }, () => ({})) };
}

/** The fields of a call in their groups. */
function groupsOf(/** @type {Call} */ { word, fields, label }) {
    const names = GROUPS[word] ?? {};
    /** @type {{ legend: string, fields: import('./fields.mjs').Field[] }[]} */
    const groups = [];
    for (const field of fields) {
        const legend = names[field.name];
        if (legend !== undefined || groups.length === 0) groups.push({ legend: legend ?? label, fields: [] });
        groups[groups.length - 1].fields.push(field);
    }
    return groups;
}

/**
 * @param {Call} call
 * @param {{ id: string, typing: Typing, changed: () => void,
 *     focused?: (field: import('./fields.mjs').Field) => void }} how  `id` begins the ids of its fields; `changed` is
 *     told of everything that is typed, `focused` of the field that is typed in.
 */
export function makeForm(call, { id, typing, changed, focused = () => {} }) {
    /** @type {Control[]} */
    const controls = [];
    const touched = new WeakSet();
    const groups = groupsOf(call).map(({ legend, fields }) => {
        const inside = legend === TERMS ? terms(fields) : el('div', { class: 'fields' }, ...fields.map(single));
        return el('fieldset', {}, el('legend', {}, legend), inside);
    });
    const rows = call.rows === undefined ? null : makeRows(call.rows, id, typing, heard);
    if (rows !== null) groups.push(el('fieldset', {}, el('legend', {}, severalOf(call.rows)), rows.node));
    const node = el('div', { class: 'form' }, ...groups);

    function single(/** @type {import('./fields.mjs').Field} */ field) {
        const made = makeField(field, `${id}-${field.name}`, typing);
        controls.push(made.control);
        return made.node;
    }

    function terms(/** @type {import('./fields.mjs').Field[]} */ fields) {
        const made = makeTerms(fields, id, typing);
        controls.push(...made.controls);
        return made.node;
    }

    /** @returns {{ control: Control, row?: number }[]} */
    const all = () => [
        ...controls.map((control) => ({ control })),
        ...(rows?.controls() ?? []).flatMap((some, at) => some.map((control) => ({ control, row: at + 1 }))),
    ];

    /** @returns {Form} */
    const read = () => ({
        values: Object.fromEntries(controls.map(({ field, value }) => [field.name, value()])),
        rows: rows?.read() ?? [],
    });

    /**
     * Marks fields, and answers with that of the first mark. Words that many fields would share are seen once.
     * @param {Mark[]} marks
     * @param {string} [otherwise]
     * @returns {Control | null}
     */
    function mark(marks, otherwise = '') {
        /** @type {Control | null} */
        let first = null;
        let isSaid = false;
        for (const { control, row } of all()) {
            const found = marks.find((one) => one.name === control.field.name && one.row === row);
            control.mark(found === undefined ? null : found.text ?? otherwise, isSaid && found?.text === undefined);
            isSaid ||= found !== undefined;
            if (found !== undefined && found === marks[0]) first = control;
        }
        return first;
    }

    // A field is marked once it was left: nobody likes to be told of a number that she is still typing.
    function heard() {
        const left = new Set(all().filter(({ control }) => touched.has(control.input))
            .map(({ control, row }) => `${control.field.name} ${row}`));
        mark(lineOf(call, read()).faults.filter((fault) => left.has(`${fault.name} ${fault.row}`)));
        changed();
    }

    rows?.fill(startOf(call).rows);
    node.addEventListener('input', heard);
    node.addEventListener('focusin', (/** @type {FocusEvent} */ event) => {
        const found = all().find(({ control }) => control.input === event.target);
        if (found !== undefined) focused(found.control.field);
    });
    node.addEventListener('change', (/** @type {Event} */ event) => {
        touched.add(/** @type {object} */ (event.target));
        heard();
    });

    return {
        call,
        node,
        read,
        mark,
        line: () => lineOf(call, read()),
        fill(/** @type {Form} */ form) {
            for (const { field, set, mark: say } of controls) {
                set(form.values[field.name] ?? '');
                say(null);
            }
            rows?.fill(form.rows);
            changed();
        },
        clear() {
            this.fill(startOf(call));
        },
        set(/** @type {string} */ name, /** @type {string} */ plain) {
            controls.find(({ field }) => field.name === name)?.set(plain);
            changed();
        },
        focus: (name = controls[0].field.name) => controls.find(({ field }) => field.name === name)?.input.focus(),
    };
}
