// What if: the last evaluation of the chosen security with other numbers. The record and the reasons before and after
// stand side by side, and nothing is kept until she says so.
import { answerOf, wordsOf } from './answers.mjs';
import { button, el } from './element.mjs';
import { callOf } from './fields.mjs';
import { formOf, lineOf, sentenceOf } from './lines.mjs';
import { refusalIn } from './view-answer.mjs';
import { makeForm } from './view-form.mjs';
import { decidingTable, listOf } from './view-why.mjs';
import { sentencesOf } from './why.mjs';

/**
 * @typedef {import('./heard.mjs').Heard} Heard
 * @typedef {ReturnType<import('./figures.mjs').makeFigures>} Figures
 */

const evaluate = /** @type {import('./fields.mjs').Call} */ (callOf('evaluate'));

/** The security stays what it is. @type {import('./fields.mjs').Call} */
const numbersCall = { ...evaluate, label: 'The day', fields: evaluate.fields.filter(({ name }) => name !== 'ID') };

const LEVELS = [1, 2, 3];
const TERMS = [0, 1, 2];

/** The figures that are compared: a name, and how each is shown. @returns {[string, (record: any) => string][]} */
function comparedOf(/** @type {Figures} */ figures) {
    const roubles = (/** @type {string} */ key) => (/** @type {any} */ record) => figures.roubles(record[key]);
    const rate = (/** @type {string} */ key) => (/** @type {any} */ record) => figures.perCent(record[key]);
    const whole = (/** @type {string} */ key) => (/** @type {any} */ record) => figures.whole(record[key]);
    return [
        ['Day', whole('day')],
        ['Evaluation, roubles', roubles('p1')],
        ['Change', (record) => figures.change(record.p1, record.p2)],
        ['Volatility', (record) => figures.volatility(record.s)],
        ['Tentative rate', rate('tentative')],
        ['Its age, trading days', whole('age')],
        ...LEVELS.map((level) => /** @type {[string, any]} */ ([`Rate ${level}`, rate(`s${level}`)])),
        ...LEVELS.flatMap((level) => /** @type {[string, any][]} */ ([
            [`Range ${level}, lower`, roubles(`lower${level}`)], [`Range ${level}, upper`, roubles(`upper${level}`)],
        ])),
        ...TERMS.flatMap((term) => /** @type {[string, any][]} */ ([
            [`Term ${term}, days`, whole(`k_${term}`)],
            [`Term ${term}, repo limits`, (record) => (
                `${figures.hundredths(record[`rrcl_${term}`])} to ${figures.perCent(record[`rrch_${term}`])}`)],
            [`Band ${term}, lower`, roubles(`lower_${term}`)], [`Band ${term}, upper`, roubles(`upper_${term}`)],
        ])),
    ];
}

/** The records side by side; what has changed is marked. */
function recordsOf(/** @type {Heard} */ before, /** @type {Heard} */ after, /** @type {Figures} */ figures) {
    const [was, is] = [before, after].map(({ call, answer }) => answerOf(call, answer));
    const rows = comparedOf(figures).map((/** @type {[string, (record: any) => string]} */ [name, shown]) => {
        const [old, next] = [shown(was), shown(is)];
        const isChanged = old !== next;
        const mark = isChanged ? [el('span', { class: 'apart' }, 'changed: ')] : [];
        return el('tr', { class: isChanged ? 'changed' : null },
            el('th', { scope: 'row' }, name), el('td', { 'data-before': '' }, old),
            el('td', { 'data-after': '' }, ...mark, next));
    });
    return el('table', { class: 'compared' }, el('caption', { class: 'apart' }, 'The record before and after'),
        el('thead', {}, el('tr', {}, el('th', { scope: 'col', class: 'words' }, 'Figure'),
            el('th', { scope: 'col' }, 'Before'), el('th', { scope: 'col' }, 'After'))),
        el('tbody', {}, ...rows));
}

/** The reasons of two days side by side. */
function reasonsOf(/** @type {{ before: any, after: any }} */ days, /** @type {Figures} */ figures) {
    const [was, is] = [days.before, days.after].map((day) => sentencesOf(day, figures));
    const texts = (/** @type {any[]} */ some) => new Set(some.map(({ text }) => text));
    const part = (/** @type {string} */ title, /** @type {any} */ day, /** @type {any[]} */ own,
        /** @type {any[]} */ others) => (
        el('section', {}, el('h3', {}, title), listOf(own, texts(others)), ...decidingTable(day, figures)));
    return el('div', { class: 'two' },
        part('Why, before', days.before, was, is), part('Why, after', days.after, is, was));
}

/**
 * @param {HTMLElement} room
 * @param {import('./view-work.mjs').Work} work
 */
export function makeWhatIf(room, work) {
    const { desk, figures, typing } = work;
    /** @type {any} The security that is looked at. */
    let security = null;
    /** @type {string | null} The line that would be kept. */
    let wanted = null;
    let asked = 0;
    let isOld = false; // what the form has is of another security, or of another day

    const form = makeForm(numbersCall, { id: 'what-if', typing, changed: () => {} });
    const title = el('h3', {});
    const verdict = el('p', { class: 'verdict', role: 'status', id: 'what-if-status' });
    const records = el('div', { class: 'scroll' });
    const reasons = el('div', { class: 'reasons' });
    const adopt = button('Keep this', keep, { id: 'adopt', class: 'main', disabled: true });
    const node = el('form', { 'data-call': 'evaluate', novalidate: true, 'aria-label': 'What if',
        onsubmit: (/** @type {Event} */ event) => {
            event.preventDefault();
            look();
        } },
    el('div', { class: 'left' }, title, form.node),
    el('div', { class: 'right' },
        el('div', { class: 'buttons' },
            el('button', { id: 'what-if' }, 'Work it out'),
            adopt,
            button('As it was', reset, { id: 'what-if-reset' })),
        verdict, records),
    reasons);
    const none = el('p', { class: 'dim' }, 'Choose a security in the table that is evaluated.');
    room.append(none, node);
    // A number is looked at when its field is left; Enter looks at once.
    form.node.addEventListener('change', () => look());

    function reset() {
        isOld = false;
        const last = security === null ? null : desk.lastEvaluation(security.id);
        const made = last === null ? null : formOf(last);
        node.hidden = made === null || 'fault' in made;
        none.hidden = !node.hidden;
        if (made === null || 'fault' in made) return;
        form.fill(made.form);
        title.textContent = `Security ${security.id}: the numbers of its last evaluation, day ${made.form.values.DAY}`;
        forget('Change a number to see what it would have made.');
    }

    function forget(/** @type {string} */ words) {
        wanted = null;
        adopt.disabled = true;
        records.replaceChildren();
        reasons.replaceChildren();
        verdict.textContent = words;
        verdict.className = 'verdict';
    }

    const changedIn = (/** @type {number} */ many) => (
        many === 0 ? 'No figure' : many === 1 ? 'One figure' : `${figures.whole(many)} figures`);

    const lineNow = () => {
        const { values, rows } = form.read();
        return lineOf(evaluate, { values: { ...values, ID: String(security.id) }, rows });
    };

    async function look() {
        asked += 1;
        const which = asked;
        const { line, faults } = lineNow();
        if (line === undefined) {
            form.mark(faults);
            forget(`The line is not whole. ${sentenceOf(faults[0])}`);
            return;
        }
        const { before, after, days } = await desk.whatIf(security.id, line);
        if (which !== asked) return; // another number was typed meanwhile
        const marks = after.faults ?? [];
        form.mark(marks, after.refused?.text);
        if (!after.accepted) {
            forget(`${refusalIn(after.refused)} What to do: ${after.refused.todo}.`);
            verdict.className = 'verdict bad';
            return;
        }
        const isSame = wordsOf(before.text).join(' ') === line;
        wanted = isSame ? null : line;
        adopt.disabled = isSame;
        records.replaceChildren(recordsOf(before, after, figures));
        reasons.replaceChildren(reasonsOf(days, figures));
        const changed = records.querySelectorAll('tr.changed').length;
        verdict.className = 'verdict';
        verdict.textContent = isSame ? 'These are the numbers as they are.'
            : `${changedIn(changed)} of the record would change. Nothing is kept yet.`;
    }

    async function keep() {
        if (wanted === null) return;
        const heard = await desk.adopt(security.id, wanted);
        work.changed(heard, heard.slice(0, 1));
        const refused = heard.filter(({ accepted }) => !accepted).length;
        reset();
        verdict.textContent = 'Kept: the line stands in place of the last evaluation.' + (refused === 0 ? ''
            : ` Of the lines behind it ${figures.whole(refused)} are refused.`);
    }

    return {
        // The form is filled when it is seen: a line that is said elsewhere need not wait for it.
        chose(/** @type {any} */ chosen) {
            security = chosen;
            isOld = true;
            if (!room.hidden) reset();
        },
        seen() {
            if (isOld && !room.hidden) reset();
        },
        opened() {
            security = null;
            reset();
        },
    };
}
