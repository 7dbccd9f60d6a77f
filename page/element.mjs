// Elements of the page: a tag, its attributes, and what stands in it. Text is always text, never markup.

const SVG = 'http://www.w3.org/2000/svg';

/**
 * @typedef {Node | string | null | undefined | false | ''} Inside  What stands in an element; nothing stands for none.
 * @typedef {{ words: string | Node } | { cell: string | Node, class?: string } | string | Node} Cell
 *     A cell of a table: words stand at the left and may take several lines.
 */

function fill(made, attributes, inside) {
    for (const [name, value] of Object.entries(attributes)) {
        if (value === null || value === undefined || value === false) continue;
        if (name.startsWith('on')) made.addEventListener(name.slice(2), value);
        else made.setAttribute(name, value === true ? '' : String(value));
    }
    made.append(...inside.filter((one) => one !== null && one !== undefined && one !== false));
    return made;
}

/**
 * An element of HTML. An attribute that begins with "on" is a listener.
 * @param {string} tag
 * @param {Object<string, any>} [attributes]
 * @param {...Inside} inside
 * @returns {any}
 */
export function el(tag, attributes = {}, ...inside) {
    return fill(document.createElement(tag), attributes, inside);
}

/**
 * An element of SVG.
 * @param {string} tag
 * @param {Object<string, any>} [attributes]
 * @param {...Inside} inside
 * @returns {any}
 */
export function svg(tag, attributes = {}, ...inside) {
    return fill(document.createElementNS(SVG, tag), attributes, inside);
}

/** A button that is no submit. */
export function button(words, onclick, attributes = {}) {
    return el('button', { type: 'button', onclick, ...attributes }, words);
}

/**
 * A table with a head, a cell a text or an element. Its caption is for a screen reader, or for everyone.
 * @param {string} caption
 * @param {Cell[]} head
 * @param {Cell[][]} rows
 * @param {{ isCaptionShown?: boolean }} how
 */
export function table(caption, head, rows, { isCaptionShown = false } = {}) {
    const cell = (tag, more) => (/** @type {any} */ one) => {
        const how = one?.words === undefined ? one?.class ?? null : 'words wrap';
        return el(tag, { ...more, class: how }, one?.words ?? one?.cell ?? one);
    };
    return el('table', {},
        el('caption', { class: isCaptionShown ? null : 'apart' }, caption),
        el('thead', {}, el('tr', {}, ...head.map(cell('th', { scope: 'col' })))),
        el('tbody', {}, ...rows.map((row) => el('tr', {}, ...row.map(cell('td', {}))))));
}
