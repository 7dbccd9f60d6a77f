// The line that a form makes, as it is typed: what is missing yet stands there by its name.
import { button, el } from './element.mjs';
import { wordOf } from './fields.mjs';

/**
 * @typedef {import('./fields.mjs').Field} Field
 * @typedef {{ text: string, isMissing: boolean }} Piece
 */

/** The words of a group of fields. @returns {Piece[]} */
function piecesOf(/** @type {Field[]} */ fields, /** @type {import('./lines.mjs').Values} */ values) {
    const instead = new Set(fields.flatMap((field) => (values[field.name] ?? '').trim() ? field.instead ?? [] : []));
    return fields.filter(({ name }) => !instead.has(name)).flatMap((field) => {
        const { word } = wordOf(field, values[field.name]);
        return word === '' ? [] : [{ text: word ?? field.name, isMissing: word === undefined }];
    });
}

/** The line of a form as far as it is there. @returns {Piece[]} */
function sketchOf(/** @type {import('./fields.mjs').Call} */ call, /** @type {import('./lines.mjs').Form} */ form) {
    const fieldsOfRows = call.rows?.fields ?? [];
    return [
        { text: call.word, isMissing: false },
        ...piecesOf(call.fields, form.values),
        ...form.rows.flatMap((values) => piecesOf(fieldsOfRows, values)),
    ];
}

/** The line below a form, with a button that copies it. */
export function makeLine(/** @type {string} */ id) {
    const code = el('code', { class: 'typed', id: `${id}-typed`, 'data-line': '' });
    const copied = el('span', { role: 'status', class: 'dim' });
    const copy = button('Copy the line', async () => {
        await copyText(code.textContent);
        copied.textContent = 'copied';
        setTimeout(() => { copied.textContent = ''; }, 2000);
    }, { id: `${id}-copy` });
    return {
        node: el('div', { class: 'line-box' },
            el('div', { class: 'head' }, el('h3', {}, 'The line'), copied, copy), code),
        show(/** @type {import('./fields.mjs').Call} */ call, /** @type {import('./lines.mjs').Form} */ form) {
            const pieces = sketchOf(call, form).flatMap(({ text, isMissing }, at) => [
                at === 0 ? '' : ' ', isMissing ? el('span', { class: 'missing' }, text) : text,
            ]);
            code.replaceChildren(...pieces);
        },
    };
}

/**
 * A line with a part of it marked. Of a long one what stands around that part is left.
 * @param {string} line
 * @param {import('./places.mjs').Span} span
 * @param {number} [around] how many characters at each side
 */
export function markedLine(line, { start, end }, around = line.length) {
    const from = Math.max(0, start - around);
    const to = end + around;
    return el('code', { class: 'typed' }, from > 0 && '…', line.slice(from, start),
        el('mark', {}, line.slice(start, end)), line.slice(end, to), to < line.length && '…');
}

/** A page from a folder may have no clipboard of its own; the older way is there always. */
async function copyText(/** @type {string} */ text) {
    try {
        await navigator.clipboard.writeText(text);
    } catch {
        const before = /** @type {HTMLElement | null} */ (document.activeElement);
        const area = el('textarea', { class: 'apart', 'aria-hidden': 'true' });
        area.value = text;
        document.body.append(area);
        area.select();
        document.execCommand('copy');
        area.remove();
        before?.focus();
    }
}
