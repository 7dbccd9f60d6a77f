// Why a day's record is what it is: the sentences, and below them the figures that decided, as the program says them.
import { el, table } from './element.mjs';
import { decidingOf, sentencesOf } from './why.mjs';

/**
 * @typedef {import('./why.mjs').Day} Day
 * @typedef {import('./why.mjs').Figures} Figures
 */

/**
 * The sentences as a list.
 * @param {{ text: string, mark: boolean }[]} sentences
 * @param {Set<string>} [others] those of another day; a sentence that is not among them is shown as changed
 */
export function listOf(sentences, others) {
    return el('ul', { class: 'why' }, ...sentences.map(({ text, mark }) => {
        const isChanged = others !== undefined && !others.has(text);
        const how = [mark ? 'mark' : '', isChanged ? 'changed' : ''].filter(Boolean).join(' ');
        return el('li', { class: how || null }, text);
    }));
}

/** The figures that decided, as a table; nothing where there are none. @returns {Node[]} */
export function decidingTable(/** @type {Day} */ day, /** @type {Figures} */ figures) {
    const rows = decidingOf(day, figures);
    if (rows.length === 0) return [];
    const head = [{ words: 'what' }, 'per cent', 'in its own unit'];
    return [el('details', {}, el('summary', {}, 'The figures that decided'),
        el('div', { class: 'scroll' }, table('The figures that decided', head,
            rows.map(([name, ...shown]) => [{ words: name }, ...shown]))))];
}

/** @returns {Node[]} */
export function whyOf(/** @type {Day} */ day, /** @type {Figures} */ figures) {
    const list = listOf(sentencesOf(day, figures));
    const remark = (/** @type {string} */ text) => el('p', { class: 'dim' }, text);
    if (day.reasons === null) {
        return [list, remark('This broadcast carries no reasons: open the evening’s text to see why.')];
    }
    if (day.reasons.figures === undefined && day.line === null) {
        return [list, remark('A broadcast has the reasons; the evening’s text has the figures that decided too.')];
    }
    return [list, ...decidingTable(day, figures)];
}
