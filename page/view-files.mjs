// Files out of the page and into it: a download by a link, a file by its field.
import { el } from './element.mjs';

const SOON = 10_000; // milliseconds; by then the browser has the file

/** Gives the reader a file. */
export function download(/** @type {string} */ name, /** @type {string | Uint8Array} */ inside, type = 'text/plain') {
    const link = el('a', { href: URL.createObjectURL(new Blob([inside], { type })), download: name });
    link.click();
    setTimeout(() => URL.revokeObjectURL(link.href), SOON);
}

/**
 * A field for a file, and its label as a button.
 * @param {string} id
 * @param {string} words
 * @param {(file: File) => void} opened
 * @returns {Node[]}
 */
export function fileField(id, words, opened) {
    const input = el('input', { type: 'file', id, class: 'apart' });
    input.addEventListener('change', () => {
        const [file] = input.files;
        if (file) opened(file);
        input.value = ''; // the same file can be opened again
    });
    return [input, el('label', { class: 'button', for: id }, words)];
}
