// Tonight's evaluations from the exchange's own text, pasted or a file: a line for each of its securities, which is
// seen before it is performed. The day, the days off and the terms are given once.
import { button, el } from './element.mjs';
import { callOf } from './fields.mjs';
import { sentenceOf } from './lines.mjs';
import { makeBadText } from './view-bad-text.mjs';
import { makeBatch, sumOf } from './view-batch.mjs';
import { fileField } from './view-files.mjs';
import { makeForm } from './view-form.mjs';
import { nextDayOf } from './view-say.mjs';

const evaluate = /** @type {import('./fields.mjs').Call} */ (callOf('evaluate'));

/** The numbers that all evaluations of the evening share. @type {import('./fields.mjs').Call} */
const sharedCall = {
    ...evaluate, label: 'The day', fields: evaluate.fields.filter(({ name }) => name !== 'ID'), rows: undefined,
};

const KNOWN = 'known';
const WAITS = 'admitted, not evaluated yet';
const UNKNOWN = 'unknown: admit it first';
const NO_ROWS = 'has no rows tonight';
const MOST_NAMED = 3;

/** A pasted text seldom has the line feed that ends its last line. */
const endedText = (/** @type {string} */ text) => (text === '' || text.endsWith('\n') ? text : `${text}\n`);

/**
 * @param {HTMLElement} room
 * @param {import('./view-work.mjs').Work} work
 */
export function makeExchange(room, work) {
    const { desk, figures, typing } = work;
    let isRead = false; // the lines follow the day from then on
    let asked = 0;
    /** @type {Uint8Array | null} A file as it is; the field shows it. */
    let file = null;

    const form = makeForm(sharedCall, { id: 'exchange', typing, changed: lines });
    const batch = makeBatch('Tonight’s evaluations', { figures, hasFigures: true, changed: count });
    const status = el('p', { class: 'verdict', role: 'status', id: 'exchange-status' });
    const text = el('textarea', {
        id: 'exchange-text', rows: 14, spellcheck: 'false', autocomplete: 'off', class: 'typed',
        oninput: () => { file = null; forget(); },
    });
    const bad = makeBadText(text, { figures, typing });
    const others = el('input', { type: 'checkbox', id: 'exchange-others', onchange: lines });
    const say = button('Say all', sayAll, { id: 'exchange-say', class: 'main', hidden: true });
    const fromLast = button('Days off and terms of the last evaluation, next day', () => {
        const last = lastLine();
        const next = last === null ? null : nextDayOf(last);
        if (next !== null) form.fill({ values: next.values, rows: [] });
    }, { id: 'exchange-from-last' });

    const node = el('form', { 'data-call': 'evaluate', novalidate: true, 'aria-label': 'Exchange’s text',
        onsubmit: (/** @type {Event} */ event) => {
            event.preventDefault();
            read();
        } },
    el('div', { class: 'left' },
        el('label', { for: 'exchange-text' }, el('strong', {}, '1. The exchange’s text')),
        el('p', { class: 'hint' }, 'id; days to settlement; central rate; repo rate; close; bid; ask; volume'),
        text,
        el('div', { class: 'buttons' }, ...fileField('exchange-file', 'Open the exchange’s file…', openFile)),
        bad.node),
    el('div', { class: 'right' },
        el('p', {}, el('strong', {}, '2. The day, for all of them')),
        el('div', { class: 'extras' }, fromLast),
        form.node,
        el('label', { class: 'check' }, others, ' also evaluate the securities that have no rows tonight'),
        el('div', { class: 'buttons' },
            el('button', { id: 'exchange-read', class: 'main' }, 'Make the lines'))));
    room.append(node, status, batch.node, el('div', { class: 'buttons' }, say));

    const lastLine = () => {
        const security = work.chosen();
        return security === null ? null : desk.lastEvaluation(security.id);
    };

    function forget() {
        isRead = false;
        asked += 1;
        tell('');
        bad.hide();
        batch.clear();
    }

    function tell(/** @type {string} */ words, isBad = false) {
        status.textContent = words;
        status.className = isBad ? 'verdict bad' : 'verdict';
    }

    async function openFile(/** @type {File} */ opened) {
        file = new Uint8Array(await opened.arrayBuffer());
        text.value = new TextDecoder('latin1').decode(file);
        forget();
        tell(`${opened.name}: ${figures.whole(file.length)} bytes.`);
    }

    async function read() {
        isRead = true;
        const { line, faults } = form.line();
        const first = form.mark(faults);
        await lines();
        if (line === undefined) first?.take();
        else if (!say.hidden) say.focus();
    }

    /** A line for each security, by the program, with the numbers of the form as they are. */
    async function lines() {
        if (!isRead) return;
        asked += 1;
        const which = asked;
        const { line, faults } = form.line();
        if (line === undefined) {
            const named = faults.slice(0, MOST_NAMED).map((fault) => sentenceOf(fault)).join(' ');
            batch.clear();
            tell(`The day is not whole. ${named}`, true);
            return;
        }
        const [, ...day] = line.split(' ');
        const bytes = file ?? new TextEncoder().encode(endedText(text.value));
        const known = new Map(work.securities().map((one) => [String(one.id), one]));
        const made = await desk.night(bytes, day, others.checked ? [...known.keys()] : []);
        if (which !== asked) return; // another number was typed meanwhile
        if (made.refused === undefined) {
            bad.hide();
            showLines(made.lines, day.length, known);
        } else {
            isRead = false; // she corrects the text, or a number of the day, with the keyboard where she has it
            batch.clear();
            tell(bad.show(made.refused, made.bad));
            status.className = 'apart'; // it is seen beside the text, and read out
        }
    }

    /**
     * The lines, each with what is known of its security.
     * @param {string[]} made
     * @param {number} dayWords  A line with no more words behind the id has no rows.
     * @param {Map<string, import('./security.mjs').Security>} known
     */
    function showLines(made, dayWords, known) {
        const items = made.map((line) => {
            const [, id, ...words] = line.split(' ');
            const one = known.get(id);
            const state = words.length === dayWords ? NO_ROWS
                : one === undefined ? UNKNOWN : one.days.length === 0 ? WAITS : KNOWN;
            return { id, line, state, isChosen: one !== undefined };
        });
        batch.show(items);
        const many = (/** @type {string} */ state) => items.filter((item) => item.state === state).length;
        const withRows = items.length - many(NO_ROWS);
        const found = `${figures.whole(withRows)} ${withRows === 1 ? 'security has' : 'securities have'} rows`;
        const unknown = many(UNKNOWN) === 0 ? '' : `, ${figures.whole(many(UNKNOWN))} of them unknown`;
        tell(items.length === 0 ? 'The text has no rows.' : `${found}${unknown}. Nothing is performed yet.`);
    }

    function count() {
        const lineCount = batch.chosen().length;
        say.hidden = lineCount === 0;
        say.textContent = `Say ${figures.whole(lineCount)} ${lineCount === 1 ? 'line' : 'lines'}`;
    }

    async function sayAll() {
        say.hidden = true;
        isRead = false; // what was said stands as it was answered
        tell('Saying …');
        const heard = await desk.say(batch.chosen());
        batch.answer(heard);
        work.changed(heard);
        tell(sumOf(heard, figures));
    }

    return {
        room,
        openFile,
        opened() {
            file = null;
            text.value = '';
            form.clear();
            forget();
        },
        chose() {
            const security = work.chosen();
            const last = lastLine();
            fromLast.disabled = last === null;
            fromLast.textContent = last === null ? 'Days off and terms of the last evaluation, next day'
                : `As the last evaluation of security ${security?.id}, next day`;
        },
    };
}
