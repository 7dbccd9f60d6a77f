// The lines that were said since the evening was opened, the latest first.
import { button, el } from './element.mjs';
import { refusalIn } from './view-answer.mjs';

const MOST_SHOWN = 30;

/**
 * @param {(line: string) => void} again  Is told of a line that is to be put into its form.
 */
export function makeSaid(again) {
    const list = el('ol', { class: 'said', reversed: true });
    const empty = el('p', { class: 'dim' },
        'Nothing yet. Each line that the program accepts is kept in the evening’s text.');
    const node = el('section', { 'aria-label': 'Said since the evening was opened' },
        el('h3', {}, 'Said since the evening was opened'), empty, list);

    const shown = () => {
        empty.hidden = list.childElementCount > 0;
        while (list.childElementCount > MOST_SHOWN) list.lastElementChild.remove();
    };
    return {
        node,
        add(/** @type {import('./view-answer.mjs').Heard} */ heard) {
            const words = heard.accepted || heard.refused === undefined ? 'accepted' : refusalIn(heard.refused);
            list.prepend(el('li', { class: heard.accepted ? null : 'not-kept', 'data-said': heard.text },
                el('code', {}, heard.text), ' ', el('span', { class: 'dim' }, words), ' ',
                button('Into the form', () => again(heard.text), { class: 'small' })));
            shown();
        },
        /** The last line that was kept is no longer in the text. */
        takeBack(/** @type {string} */ line) {
            const last = list.querySelector('li:not(.not-kept)');
            if (last?.dataset.said === line) last.remove();
            shown();
        },
        clear() {
            list.replaceChildren();
            shown();
        },
    };
}
