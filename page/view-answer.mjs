// What the program answered to a line: named figures, or the refusal in words with what to do.
import { answerOf, wordsOf } from './answers.mjs';
import { el, table } from './element.mjs';
import { callOf } from './fields.mjs';
import { sentenceOf } from './lines.mjs';
import { placeOf } from './places.mjs';
import { markedLine } from './view-line.mjs';
import { cards, limitsOf, outsideOf, priceOf, timeOf } from './view-security.mjs';
import { sessionOf } from './view-table.mjs';

/**
 * @typedef {import('./heard.mjs').Heard} Heard
 * @typedef {ReturnType<import('./figures.mjs').makeFigures>} Figures
 * @typedef {[string, string | Node]} Told  A name and its figure.
 */

const yes = (/** @type {number} */ flag) => (flag === 1 ? 'yes' : 'no');

/** Names with their figures below each other. */
function list(/** @type {Told[]} */ told) {
    return el('dl', { class: 'told' }, ...told.map(([name, figure]) => (
        el('div', {}, el('dt', {}, name), el('dd', {}, figure)))));
}

/** The figures of a record that a call is about. @returns {Told[]} */
function aboutOf(/** @type {string} */ call, record, /** @type {Figures} */ figures) {
    const outside = [
        ['Outside bid', outsideOf(record.extBid, figures)], ['Outside ask', outsideOf(record.extAsk, figures)],
    ];
    const moves = [
        ['Moves, upper side', figures.whole(record.movesUpper)],
        ['Moves, lower side', figures.whole(record.movesLower)],
    ];
    const session = [
        ['Session', sessionOf(record.session)], ['Moves in the evening', figures.whole(record.eveningMoves)],
    ];
    const last = ['Last quote', record.lastSecond === 0 ? 'none' : timeOf(record.lastSecond)];
    switch (call) {
    case 'evaluate': return [];
    case 'move': return /** @type {Told[]} */ ([...moves, ...session]);
    case 'open': return /** @type {Told[]} */ (session);
    case 'read': return /** @type {Told[]} */ ([...moves, ...session, last, ...outside]);
    default: return /** @type {Told[]} */ (outside);
    }
}

function ofRecord(/** @type {string} */ call, record, /** @type {Figures} */ figures) {
    const about = aboutOf(call, record, figures);
    const told = about.length > 0 ? [list(about)] : [];
    if (record.live !== 1) return told;
    return [...told, priceOf(record, figures), cards(record, figures), limitsOf(record, figures)];
}

function ofInterest(answer, /** @type {string} */ text, /** @type {Figures} */ figures) {
    const words = wordsOf(text).slice(15);
    const days = (/** @type {number} */ at) => figures.whole(Number(words[at * 8]));
    const rows = answer.maturities.map((one, at) => [
        days(at), ...['change', 'volatility', 'tentative'].map((name) => figures.perCent(one[name])),
        figures.whole(one.age), figures.perCent(one.up), figures.perCent(one.down),
    ]);
    const head = ['days', 'change', 'volatility', 'tentative', 'age', 'up', 'down'];
    return [
        list([
            ['Repo band, lower', figures.perCent(answer.lower)], ['Repo band, upper', figures.perCent(answer.upper)],
        ]),
        el('div', { class: 'scroll' }, table('Key maturities', head, rows, { isCaptionShown: true })),
    ];
}

function ofBond(answer, /** @type {Figures} */ figures) {
    const rows = answer.terms.map((one, at) => [
        String(at), ...['lower', 'upper', 'offLower', 'offUpper'].map((name) => figures.perCent(one[name])),
    ]);
    const head = ['term', 'lower', 'upper', 'lower, off the book', 'upper, off the book'];
    return [
        list([
            ['Gross evaluation', `${figures.roubles(answer.p)} roubles`],
            ...[1, 2, 3].map((level) => /** @type {Told} */ ([`Rate ${level}`, figures.perCent(answer[`s${level}`])])),
            ['Tentative rate', figures.perCent(answer.tentative)], ['Age', `${figures.whole(answer.age)} trading days`],
        ]),
        el('div', { class: 'scroll' },
            table('Limits, in per cent of the face value', head, rows, { isCaptionShown: true })),
    ];
}

/** The figures of an accepted answer. @returns {Node[]} */
export function figuresOf(/** @type {Heard} */ { call, answer, text }, /** @type {Figures} */ figures) {
    const named = answerOf(call, answer);
    switch (named.kind) {
    case 'record': return ofRecord(call, named, figures);
    case 'interest': return ofInterest(named, text, figures);
    case 'bond': return ofBond(named, figures);
    case 'quote': return [list([['Alert at the top', yes(named.top)], ['Alert at the bottom', yes(named.bottom)]])];
    case 'admitted': return [
        el('p', { class: 'dim' }, 'It is in the table. It has figures from its first evaluation on.'),
    ];
    default: return [];
    }
}

/** What an accepted line did, in a sentence. */
function doneOf(/** @type {Heard} */ { call, answer, text }, /** @type {Figures} */ figures) {
    const id = wordsOf(text)[1];
    const named = answerOf(call, answer);
    if (named.kind === 'heading') return 'A heading: it stands in the text, and the program passes over it.';
    if (named.kind === 'record' && call === 'evaluate') {
        return `Security ${id}, day ${figures.whole(named.day)}: ${figures.roubles(named.p1)} roubles.`;
    }
    if (named.kind === 'quote') return `Quote of security ${id}: ${alertOf(named)}.`;
    if (named.kind === 'interest') return 'The repo band is worked out.';
    if (named.kind === 'bond') return 'The bond is worked out.';
    return `${DONE[call] ?? 'Done'}: security ${id}.`;
}

const DONE = {
    admit: 'Admitted', move: 'Moved', open: 'The evening is open', outside: 'Outside prices kept',
    notice: 'Outside price kept', withdraw: 'Outside prices withdrawn', read: 'Read',
};

function alertOf(/** @type {any} */ { top, bottom }) {
    if (top === 1 && bottom === 1) return 'alert at the top and at the bottom';
    return top === 1 ? 'alert at the top' : bottom === 1 ? 'alert at the bottom' : 'no alert';
}

/** A refusal in one sentence. */
export function refusalIn(/** @type {NonNullable<Heard['refused']>} */ refused) {
    if (refused.number === undefined) return `Refused: ${refused.detail ?? `${refused.text}.`}`;
    const place = placeOf(refused);
    const where = place === '' ? '' : refused.field === undefined ? `, in ${place}` : `: ${place}`;
    return `Refused (${refused.number}): ${refused.text}${where}.`;
}

/** What each field at fault must be, in sentences. @returns {string[]} */
export function faultsIn(/** @type {Heard} */ { call: word, faults = [] }) {
    const call = callOf(word);
    const labels = [...call?.fields ?? [], ...call?.rows?.fields ?? []];
    return faults.filter(({ text }) => text !== undefined).map(({ name, row, text = '', range }) => {
        const label = labels.find((field) => field.name === name)?.label ?? name;
        return sentenceOf({ name, label, row, text, range }, call?.rows?.label);
    });
}

const upper = (/** @type {string} */ words) => words[0].toUpperCase() + words.slice(1);

/**
 * The room of an answer: a sentence that is read out, and the figures below it.
 * @param {Figures} figures
 * @param {ReturnType<import('./view-typing.mjs').makeTyping>} typing
 * @param {Object<string, string>} [attributes]
 */
export function makeAnswer(figures, typing, attributes = {}) {
    const verdict = el('p', { class: 'verdict', role: 'status', 'aria-live': 'polite' });
    const more = el('div');
    const node = el('div', { class: 'answer', 'data-answer': '', ...attributes }, verdict, more);
    const say = (/** @type {string} */ how, /** @type {string} */ words, /** @type {Node[]} */ ...inside) => {
        node.className = `answer ${how}`;
        verdict.textContent = words;
        more.replaceChildren(...inside);
    };
    const listOf = (/** @type {string[]} */ items) => (
        el('ul', {}, ...items.map((item) => el('li', {}, typing.range(item)))));
    const raw = (/** @type {Heard} */ { answer }) => el('details', {}, el('summary', {}, 'The program’s own line'),
        el('code', { class: 'typed' }, answer));
    return {
        node,
        /**
         * @param {Heard} heard
         * @param {{ kept: boolean, span?: import('./places.mjs').Span | null }} how  `span` is the part of a typed
         *     line that is at fault, where no form shows it.
         */
        show(heard, { kept, span = null }) {
            node.dataset.answer = heard.answer;
            node.dataset.accepted = String(heard.accepted);
            const { refused } = heard;
            if (heard.accepted || refused === undefined) {
                const words = `${doneOf(heard, figures)}${kept ? '' : ' Nothing is kept of it.'}`;
                say(kept ? 'accepted' : 'tried', words, ...figuresOf(heard, figures), raw(heard));
                return;
            }
            say('refused', refusalIn(refused), ...(span === null ? [] : [markedLine(heard.text, span)]),
                el('p', {}, el('strong', {}, 'What to do: '), `${upper(refused.todo)}. The line is not kept.`),
                listOf(faultsIn(heard)), raw(heard));
        },
        /** Words of the page itself: the program was not asked. */
        tell(/** @type {string} */ words, /** @type {string[]} */ ...items) {
            node.dataset.answer = '';
            node.dataset.accepted = 'false';
            say('refused', words, listOf(items));
        },
        clear() {
            node.dataset.answer = '';
            delete node.dataset.accepted;
            say('', '');
        },
    };
}
