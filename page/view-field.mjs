// One field of a form: its label, what is typed in it, its range with the unit, and what is at fault in it.
import { el } from './element.mjs';
import { rangeOf } from './fields.mjs';

/**
 * @typedef {import('./fields.mjs').Field} Field
 * @typedef {ReturnType<import('./view-typing.mjs').makeTyping>} Typing
 * @typedef {object} Control
 * @property {Field} field
 * @property {HTMLInputElement | HTMLSelectElement} input
 * @property {HTMLElement} fault  The words about what is wrong, which stand below it.
 * @property {() => string} value  What is typed, as kinds.mjs reads it.
 * @property {(plain: string) => void} set
 * @property {() => void} take  Puts the caret into it, with what is typed chosen: the next key replaces it.
 * @property {(text: string | null, isQuiet?: boolean) => void} mark  What is at fault, or nothing; quiet words are for
 *     a screen reader alone.
 */

const upper = (/** @type {string} */ words) => words[0].toUpperCase() + words.slice(1);

/** The range of a field, with its unit, in the reader's grouping. */
export function hintOf(/** @type {Field} */ field, /** @type {Typing} */ typing) {
    return typing.range(rangeOf(field)) + (field.preset === undefined ? '' : ', or empty');
}

/** The keys that a phone offers: those for numbers have no minus, slash or colon. */
function keysOf(/** @type {Field} */ { kind, least }) {
    const isPlain = least >= 0n && !/[/:]/.test(kind.unit);
    return isPlain ? 'decimal' : 'text';
}

function inputOf(/** @type {Field} */ field, /** @type {Object<string, any>} */ attributes) {
    const { kind, name } = field;
    if (kind.names !== undefined) {
        const option = (/** @type {string} */ one) => el('option', { value: one }, one);
        return el('select', { name, ...attributes }, el('option', { value: '' }, 'choose'), ...kind.names.map(option));
    }
    const keys = { autocomplete: 'off', spellcheck: 'false', inputmode: keysOf(field) };
    return el('input', { type: 'text', name, ...keys, ...attributes });
}

/**
 * The control of a field.
 * @param {Field} field
 * @param {{ id: string, typing: Typing, hint: string, attributes?: Object<string, any> }} how  `hint` is the id of
 *     the words that say the range.
 * @returns {Control}
 */
export function makeControl(field, { id, typing, hint, attributes = {} }) {
    const fault = el('span', { id: `${id}-fault`, class: 'fault', hidden: true });
    const input = inputOf(field, { id, 'aria-describedby': hint, ...attributes });
    return {
        field,
        input,
        fault,
        value: () => typing.plain(input.value),
        set(plain) {
            const text = typing.shown(plain);
            // A number that has no name, as a line may have it, is offered too.
            if (input.options !== undefined && ![...input.options].some((one) => one.value === text)) {
                input.append(el('option', { value: text }, text));
            }
            input.value = text;
        },
        take() {
            input.focus();
            if (input.options === undefined) input.select();
        },
        mark(text, isQuiet = false) {
            fault.hidden = text === null;
            fault.className = isQuiet ? 'fault apart' : 'fault';
            fault.textContent = text === null ? '' : upper(typing.range(text));
            if (text === null) input.removeAttribute('aria-invalid');
            else input.setAttribute('aria-invalid', 'true');
            input.setAttribute('aria-describedby', text === null ? hint : `${fault.id} ${hint}`);
        },
    };
}

/** A field with its label above and its range below. */
export function makeField(/** @type {Field} */ field, /** @type {string} */ id, /** @type {Typing} */ typing) {
    const control = makeControl(field, { id, typing, hint: `${id}-hint` });
    const hint = el('span', { id: `${id}-hint`, class: 'hint' },
        hintOf(field, typing), el('span', { class: 'apart' }, `. ${field.meaning}`));
    const node = el('div', { class: 'field', 'data-field': field.name, title: field.meaning },
        el('label', { for: id }, field.label, ' ', el('span', { class: 'name' }, field.name)),
        control.input, hint, control.fault);
    return { control, node };
}
