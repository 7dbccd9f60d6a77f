// A question that has to be answered before the page goes on. Escape answers nothing, and the focus goes back.
import { button, el } from './element.mjs';

/**
 * @param {string} title
 * @param {string} words
 * @param {{ key: string, words: string }[]} choices  The first is the one that is safe.
 * @returns {Promise<string | null>}
 */
export function ask(title, words, choices) {
    return new Promise((answered) => {
        const dialog = el('dialog', { 'aria-labelledby': 'ask-title', id: 'ask' },
            el('h2', { id: 'ask-title' }, title), el('p', {}, words),
            el('div', { class: 'buttons' }, ...choices.map(({ key, words: says }, at) => (
                button(says, () => dialog.close(key), { 'data-choice': key, class: at === 0 ? 'main' : null })))));
        dialog.addEventListener('close', () => {
            dialog.remove();
            answered(dialog.returnValue === '' ? null : dialog.returnValue);
        });
        document.body.append(dialog);
        dialog.showModal();
    });
}
