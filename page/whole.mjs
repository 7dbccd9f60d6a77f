// Whether a broadcast is whole, in a sentence, with the day by which a member knows tonight's.

/**
 * @typedef {import('./security.mjs').Sheet} Sheet
 * @typedef {ReturnType<typeof import('./figures.mjs').makeFigures>} Figures
 */

/** Whether a broadcast is whole. */
export function wholeSentence(/** @type {Sheet} */ { whole, damage, lines }, /** @type {Figures} */ figures) {
    const { is, begins, ends, day } = whole;
    const last = day === null ? 'None of its messages has a day.'
        : `Its last day is ${day}: see that this is tonight’s, since yesterday’s broadcast is whole too.`;
    if (is) {
        return `The broadcast is whole: ${figures.whole(lines)} messages from its begin to its end, and the sum of ` +
            `their bytes is right. ${last}`;
    }
    if (begins === 0 && damage === null) {
        return `This broadcast has neither begin nor end: nothing in it says whether it is whole. ${last}`;
    }
    const not = 'The broadcast is not whole';
    if (damage !== null) return `${not}. Get the file again.`;
    if (ends < begins) return `${not}: it began and has no end. Get the file again.`;
    return begins > 1 ? `${not}: ${figures.whole(begins)} broadcasts stand one behind the other in this file.`
        : `${not}: messages stand before its begin or behind its end.`;
}
