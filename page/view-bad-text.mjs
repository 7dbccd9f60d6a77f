// What is wrong with the exchange's text: the line at fault, which is chosen in the field too, and what a good text is.
import { el } from './element.mjs';

/** What a text must be (docs/EXCHANGE.md): the program says of a bad line no more than its number. */
const A_GOOD_TEXT = [
    'A line has eight fields with semicolons between them, and a line end: the id, 1 to 1000000000; the days to ' +
        'settlement, 0 to 30; the central rate, 0.0001 to 1000; the repo rate in per cent, -99.99 to 99.99; close, ' +
        'bid and ask, 0 to 1000000 or empty; the volume, 0 to 100000000, above 0 only with a close.',
    'Decimals stand behind a point. There are no blanks, no empty lines and no line with the names of the columns.',
    'A security has at most 16 rows; a text has at most 512 securities and 1048576 bytes.',
];

/**
 * @param {HTMLTextAreaElement} field  Has the text.
 * @param {{ figures: ReturnType<import('./figures.mjs').makeFigures>,
 *     typing: ReturnType<import('./view-typing.mjs').makeTyping> }} how
 */
export function makeBadText(field, { figures, typing }) {
    const node = el('div', { class: 'answer refused', id: 'exchange-bad', hidden: true });

    /** Chooses a line in the field, and puts the keyboard there. */
    function choose(/** @type {number} */ line) {
        const lines = field.value.split('\n');
        const start = lines.slice(0, line - 1).reduce((sum, one) => sum + one.length + 1, 0);
        field.setSelectionRange(start, start + (lines[line - 1] ?? '').length);
        field.focus();
        field.scrollTop = field.scrollHeight * (line - 1) / lines.length - field.clientHeight / 2;
    }

    return {
        node,
        hide() {
            node.hidden = true;
        },
        /**
         * @param {import('./refusals.mjs').Refused} refused
         * @param {string} bad the line at fault
         * @returns {string} what is wrong, in a sentence
         */
        show({ number, line = 0, todo }, bad) {
            node.hidden = false;
            node.dataset.line = String(line);
            const what = line === 0 ? 'the exchange’s text is too long'
                : `line ${figures.whole(line)} of the exchange’s text is bad`;
            const shown = line === 0 ? [] : [el('code', { class: 'typed' }, bad === '' ? '(an empty line)' : bad)];
            const words = `Refused (${number}): ${what}.`;
            node.replaceChildren(el('p', { class: 'verdict' }, words), ...shown,
                el('p', {}, el('strong', {}, 'What to do: '), `${todo}. No line of the text is taken.`),
                el('ul', {}, ...A_GOOD_TEXT.map((rule) => el('li', {}, typing.range(rule)))));
            if (line > 0) choose(line);
            return words;
        },
    };
}
