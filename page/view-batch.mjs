// Many lines at once: a table with a row a line, and the answers in it when they were said.
import { answerOf } from './answers.mjs';
import { el } from './element.mjs';
import { refusalIn } from './view-answer.mjs';

/**
 * @typedef {import('./heard.mjs').Heard} Heard
 * @typedef {object} Item  One line.
 * @property {string} id  Of the security.
 * @property {string} state  What is known of the security.
 * @property {string} line
 * @property {boolean} isChosen  Whether it is said unless she says otherwise.
 */

const FIGURES = ['Evaluation', 'Change', 'Volatility', 'Rate 1', 'Rate 2', 'Rate 3'];

/** The figures of an accepted evaluation. @returns {string[]} */
function figuresOf(record, /** @type {any} */ figures) {
    return [
        figures.roubles(record.p1), figures.change(record.p1, record.p2), figures.volatility(record.s),
        ...[1, 2, 3].map((level) => figures.perCent(record[`s${level}`])),
    ];
}

/**
 * @param {string} caption
 * @param {{ figures: any, hasFigures: boolean, changed: () => void }} how  `changed` is told when another line is
 *     chosen.
 */
export function makeBatch(caption, { figures, hasFigures, changed }) {
    const body = el('tbody');
    const heads = ['Say', 'Security', 'State', 'Answer', ...(hasFigures ? FIGURES : []), 'The line'];
    const atLeft = new Set(['State', 'Answer', 'The line']);
    const frame = { class: 'scroll batch', role: 'region', tabindex: '0', 'aria-label': caption, hidden: true };
    const node = el('div', frame,
        el('table', {}, el('caption', { class: 'apart' }, caption),
            el('thead', {}, el('tr', {}, ...heads.map((head) => (
                el('th', { scope: 'col', class: atLeft.has(head) ? 'words' : null }, head))))), body));
    /** @type {{ item: Item, box: HTMLInputElement, row: HTMLElement, answer: HTMLElement, cells: HTMLElement[] }[]} */
    let made = [];

    function rowOf(/** @type {Item} */ item) {
        const box = el('input', {
            type: 'checkbox', checked: item.isChosen, onchange: changed,
            'aria-label': `Say the line of security ${item.id}`,
        });
        const answer = el('td', { class: 'words wrap', 'data-answer': '' }, '–');
        const cells = hasFigures ? FIGURES.map(() => el('td', {}, '–')) : [];
        const row = el('tr', { 'data-id': item.id },
            el('td', {}, box), el('th', { scope: 'row' }, item.id), el('td', { class: 'words' }, item.state), answer,
            ...cells, el('td', { class: 'words', 'data-line': '' }, el('code', {}, item.line)));
        return { item, box, row, answer, cells };
    }

    return {
        node,
        show(/** @type {Item[]} */ items) {
            made = items.map(rowOf);
            body.replaceChildren(...made.map(({ row }) => row));
            node.hidden = items.length === 0;
            changed();
        },
        /** The lines that are to be said, in their order. */
        chosen: () => made.filter(({ box }) => box.checked).map(({ item }) => item.line),
        /** Puts the answers to the chosen lines in their rows; an accepted line is not said twice. */
        answer(/** @type {Heard[]} */ heard) {
            const said = made.filter(({ box }) => box.checked);
            said.forEach(({ box, row, answer, cells }, at) => {
                const one = heard[at];
                answer.dataset.answer = one.answer;
                row.className = one.accepted ? 'accepted' : 'refused';
                const { refused } = one;
                answer.textContent = refused === undefined
                    ? 'accepted' : `${refusalIn(refused)} What to do: ${refused.todo}.`;
                // The words of a refusal take the room of the figures.
                cells.forEach((cell) => { cell.hidden = !one.accepted; });
                /** @type {HTMLTableCellElement} */ (answer).colSpan = one.accepted ? 1 : 1 + cells.length;
                if (!one.accepted) return;
                box.checked = false;
                box.disabled = true;
                const named = answerOf(one.call, one.answer);
                if (named.kind === 'record') {
                    figuresOf(named, figures).forEach((figure, which) => { cells[which].textContent = figure; });
                }
            });
            changed();
        },
        clear() {
            this.show([]);
        },
    };
}

/** What became of many lines, in a sentence. */
export function sumOf(/** @type {Heard[]} */ heard, /** @type {any} */ figures) {
    const accepted = heard.filter((one) => one.accepted).length;
    const refused = heard.length - accepted;
    return `${figures.whole(accepted)} accepted, ${figures.whole(refused)} refused.`;
}
