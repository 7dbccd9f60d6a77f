// What was refused, in words with its place: a damaged broadcast, messages of an unknown kind, lines of an evening; and
// the headings of an evening, and whether a broadcast is whole.
import { el, table } from './element.mjs';
import { faultIn, heardOf } from './heard.mjs';
import { markedLine } from './view-line.mjs';
import { wholeSentence } from './whole.mjs';

const MOST_SHOWN = 500;
const LINE_MOST = 60; // characters of a line
const AROUND = 20; // on each side of what is at fault in it

function damageOf(damage, figures) {
    const before = damage.message - 1;
    const messages = `${figures.whole(before)} ${before === 1 ? 'message' : 'messages'}`;
    const stays = before === 0
        ? 'Nothing stands before it.'
        : `What was read before it, ${messages}, is shown; nothing behind it is.`;
    const place = `Message ${figures.whole(damage.message)}, at byte ${figures.whole(damage.offset)} of the file`;
    return el('div', { class: 'card alert', role: 'alert' },
        el('h2', {}, 'The broadcast is damaged'),
        el('p', {}, `${place} (the first is byte 0), is refused: ${damage.words} (${damage.number}). ${stays}`));
}

/** Whether a broadcast is whole. One that is not is an alert; that of the old form says nothing of itself. */
function wholeOf(sheet, figures) {
    const { is, begins } = sheet.whole;
    const isAlert = !is && begins > 0;
    return el('div', { class: isAlert ? 'card alert' : 'card', role: isAlert ? 'alert' : 'status', id: 'whole' },
        el('p', {}, wholeSentence(sheet, figures)));
}

function unknownOf(unknown, figures) {
    const kinds = [...new Set(unknown.map((one) => one.which))].join(', ');
    const count = figures.whole(unknown.length);
    return el('div', { class: 'card' },
        el('p', {}, `Skipped: ${count} of a kind of message that the program does not know (${kinds}).`));
}

/** A refused line: what is at fault in it, or how it begins. */
function lineIn({ text, answer, why }) {
    const span = faultIn(heardOf(text, { answer, why }));
    if (span !== null) return markedLine(text, span, AROUND);
    return el('code', { class: 'typed' }, text.length > LINE_MOST ? `${text.slice(0, LINE_MOST)}…` : text);
}

function refusedOf(refusals, figures) {
    const rows = refusals.slice(0, MOST_SHOWN).map((one) => [
        figures.whole(one.line),
        one.number === null ? 'bad' : String(one.number),
        { words: one.place === '' ? one.words : `${one.words}: ${one.place}` },
        { words: lineIn(one) },
    ]);
    const head = ['line', 'answer', { words: 'why' }, { words: 'the line' }];
    const more = refusals.length - rows.length;
    return el('details', { class: 'card' },
        el('summary', {}, `${figures.whole(refusals.length)} refused ${refusals.length === 1 ? 'line' : 'lines'}`),
        el('div', { class: 'scroll' }, table('Refused lines', head, rows)),
        more > 0 && el('p', { class: 'dim' }, `and ${figures.whole(more)} more`));
}

function headingsOf(headings, figures) {
    const rows = headings.slice(0, MOST_SHOWN).map(({ line, text }) => [figures.whole(line), { words: text }]);
    const more = headings.length - rows.length;
    return el('details', { class: 'card', open: true },
        el('summary', {}, `${figures.whole(headings.length)} ${headings.length === 1 ? 'heading' : 'headings'}`),
        el('div', { class: 'scroll' }, table('Headings', ['line', { words: 'heading' }], rows)),
        more > 0 && el('p', { class: 'dim' }, `and ${figures.whole(more)} more`));
}

/** Shows what a sheet has of headings and refusals; a sheet without any has an empty room. */
export function showNotices(room, sheet, figures, isNew = false) {
    const empty = isNew
        ? 'The evening has no security yet: admit one, or open a file of admissions.'
        : 'No security stands in this file.';
    room.replaceChildren(...[
        sheet.securities.length === 0 && el('div', { class: 'card' }, el('p', {}, empty)),
        sheet.damage && damageOf(sheet.damage, figures),
        sheet.whole && sheet.lines > 0 && wholeOf(sheet, figures),
        sheet.unknown.length > 0 && unknownOf(sheet.unknown, figures),
        sheet.headings.length > 0 && headingsOf(sheet.headings, figures),
        sheet.refusals.length > 0 && refusedOf(sheet.refusals, figures),
    ].filter(Boolean));
}

/** A file that could not be opened at all, or a fault of the page itself. */
export function showFailure(room, words, title = 'The file could not be opened') {
    room.replaceChildren(el('div', { class: 'card alert', role: 'alert' }, el('h2', {}, title), el('p', {}, words)));
}
