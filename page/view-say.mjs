// Saying a line: a form for each call, the line as it is typed, and the program's answer. A line can be typed as it
// stands, too.
import { ADMISSION } from './answers.mjs';
import { button, el } from './element.mjs';
import { callOf, calls, staticNames } from './fields.mjs';
import { faultIn } from './heard.mjs';
import { formOf, sentenceOf } from './lines.mjs';
import { faultsIn, makeAnswer } from './view-answer.mjs';
import { makeForm } from './view-form.mjs';
import { makeLine } from './view-line.mjs';
import { makeSaid } from './view-said.mjs';

/**
 * @typedef {import('./fields.mjs').Call} Call
 * @typedef {import('./view-answer.mjs').Heard} Heard
 * @typedef {ReturnType<typeof makeForm>} FormView
 */

const FIRST = 'evaluate';
const WITH_STATICS = ['admit', 'bond'];
const MOST_NAMED = 6;

const admitFields = /** @type {Call} */ (callOf('admit')).fields;

/** The statics of a security as they are typed in a form. @returns {import('./lines.mjs').Values} */
function staticsOf(/** @type {object} */ { statics }) {
    const values = admitFields.map(({ name, kind }, at) => [name, kind.typed(String(statics[ADMISSION[at]]))]);
    return Object.fromEntries(values.filter(([name]) => staticNames.includes(name)));
}

/** The form of a line with the next day in it. */
export function nextDayOf(/** @type {string} */ line) {
    const made = formOf(line);
    if ('fault' in made) return null;
    const day = String(BigInt(made.form.values.DAY) + 1n);
    return { ...made.form, values: { ...made.form.values, DAY: day } };
}

/**
 * @param {HTMLElement} room
 * @param {import('./view-work.mjs').Work} work
 */
export function makeSay(room, work) {
    const { figures, typing } = work;
    /** @type {Map<string, FormView>} */
    const forms = new Map();
    const line = makeLine('say');
    const answer = makeAnswer(figures, typing, { id: 'say-answer' });
    const said = makeSaid(again);
    /** @type {FormView} */
    let form;
    let isBusy = false;

    const groups = el('div');
    const statics = el('select', { id: 'copy-statics', onchange: copyStatics },
        el('option', { value: '' }, 'choose a security'));
    const copying = el('label', {}, 'Copy the statics of ', statics);
    const starting = button('', startFromLast, { id: 'start-from-last' });
    const extras = el('div', { class: 'extras' }, copying, starting);
    const about = el('p', { class: 'dim about', 'aria-hidden': 'true' }); // a screen reader has it with the field
    const meaning = el('p', { class: 'dim' });
    const node = el('form', { novalidate: true, 'aria-label': 'Say a line', onsubmit: (/** @type {Event} */ event) => {
        event.preventDefault();
        submit(true);
    } });
    const chooser = el('fieldset', { class: 'calls' }, el('legend', {}, 'What to say'), ...calls.map((call) => (
        el('label', {}, el('input', {
            type: 'radio', name: 'call', value: call.word, id: `say-call-${call.word}`, checked: call.word === FIRST,
            onchange: () => choose(call.word),
        }), el('span', {}, call.label)))));
    node.append(
        el('div', { class: 'left' }, meaning, extras, groups),
        el('div', { class: 'right' }, line.node,
            el('div', { class: 'buttons' },
                el('button', { class: 'main', id: 'say' }, 'Say it'),
                button('Try it, keep nothing', () => submit(false), { id: 'try' }),
                button('Clear the form', clear, { id: 'clear' })),
            about, answer.node));

    const typed = el('input', {
        type: 'text', id: 'line', class: 'typed', autocomplete: 'off', spellcheck: 'false', autocapitalize: 'off',
        'aria-describedby': 'line-fault', oninput: () => { typedFault.textContent = ''; },
    });
    const typedFault = el('p', { class: 'fault', id: 'line-fault' });
    const raw = el('form', { class: 'raw', novalidate: true, onsubmit: (/** @type {Event} */ event) => {
        event.preventDefault();
        submitTyped();
    } }, el('label', { for: 'line' }, 'Or type a line of the evening’s text'), typed,
    el('button', { id: 'say-line' }, 'Say the line'),
    button('Into the form', () => again(typed.value), { id: 'line-to-form' }), typedFault);

    room.append(chooser, node, raw, said.node);
    // A security that is typed is the one that is worked on.
    node.addEventListener('change', (/** @type {any} */ { target }) => {
        if (target.name === 'ID' && form.call.word !== 'admit') work.choose(Number(form.read().values.ID));
    });
    choose(FIRST);

    function choose(/** @type {string} */ word) {
        const call = /** @type {Call} */ (callOf(word));
        if (!forms.has(word)) {
            const changed = () => {
                if (form === forms.get(word)) line.show(call, form.read());
            };
            const focused = (/** @type {import('./fields.mjs').Field} */ { label, meaning: words }) => {
                about.textContent = `${label}: ${words}`;
            };
            forms.set(word, makeForm(call, { id: 'say', typing, changed, focused }));
            follow(work.chosen(), word);
        }
        form = /** @type {FormView} */ (forms.get(word));
        node.dataset.call = word;
        meaning.textContent = call.meaning;
        groups.replaceChildren(form.node);
        showExtras();
        line.show(call, form.read());
        answer.clear();
    }

    function pickCall(/** @type {string} */ word) {
        /** @type {HTMLInputElement} */ (room.querySelector(`#say-call-${word}`)).checked = true;
        choose(word);
    }

    function showExtras() {
        const { word } = form.call;
        const hasStatics = WITH_STATICS.includes(word);
        copying.hidden = !hasStatics;
        starting.hidden = word !== 'evaluate';
        extras.hidden = !hasStatics && word !== 'evaluate';
        if (hasStatics) offerStatics();
        const security = work.chosen();
        starting.disabled = lastOf(security) === null;
        const of = security === null ? '' : ` of security ${security.id}`;
        starting.textContent = `Start from the last evaluation${of}, next day`;
    }

    /** @returns {string | null} */
    function lastOf(/** @type {{ id: number } | null} */ security) {
        return security === null ? null : work.desk.lastEvaluation(security.id);
    }

    /** The securities whose statics can be copied; the list is made anew only where there are others. */
    function offerStatics() {
        const ids = work.securities().filter(({ statics }) => statics !== null).map(({ id }) => String(id));
        const offered = [...statics.options].slice(1).map(({ value }) => value);
        if (ids.join() === offered.join()) return;
        statics.replaceChildren(el('option', { value: '' }, 'choose a security'),
            ...ids.map((id) => el('option', { value: id }, `security ${id}`)));
    }

    function copyStatics() {
        const security = work.securities().find(({ id }) => String(id) === statics.value);
        if (security === undefined) return;
        const { values, rows } = form.read();
        form.fill({ values: { ...values, ...staticsOf(security) }, rows });
    }

    function startFromLast() {
        const last = lastOf(work.chosen());
        const next = last === null ? null : nextDayOf(last);
        if (next === null) return;
        form.fill(next);
        form.focus('DAY');
    }

    /** The forms are about the security that is chosen in the table; an admission is about a new one. */
    function follow(/** @type {{id: number} | null} */ security, /** @type {string | null} */ only = null) {
        if (security === null) return;
        for (const [word, one] of forms) {
            if (word !== 'admit' && (only === null || only === word)) one.set('ID', String(security.id));
        }
    }

    /** A line as the values of its form. */
    function again(/** @type {string} */ text) {
        const made = formOf(text);
        if ('fault' in made) {
            answer.tell(made.fault);
            return;
        }
        pickCall(made.call.word);
        form.fill(made.form);
        form.focus();
    }

    function clear() {
        form.clear();
        follow(work.chosen(), form.call.word);
        answer.clear();
        form.focus();
    }

    function notWhole(/** @type {import('./lines.mjs').Fault[]} */ faults) {
        const first = form.mark(faults);
        const named = faults.slice(0, MOST_NAMED).map((fault) => sentenceOf(fault, form.call.rows?.label));
        const more = faults.length - named.length;
        answer.tell('The line is not whole, so the program was not asked.', ...named,
            ...(more > 0 ? [`and ${figures.whole(more)} more`] : []));
        first?.take();
    }

    async function submit(/** @type {boolean} */ isKept) {
        const made = form.line();
        if (made.line === undefined) {
            notWhole(made.faults);
            return;
        }
        const heard = await hear(made.line, isKept);
        if (heard !== null) showAnswer(heard, isKept);
    }

    /** Asks the program, once at a time. @returns {Promise<Heard | null>} */
    async function hear(/** @type {string} */ text, /** @type {boolean} */ isKept) {
        if (isBusy) return null;
        isBusy = true;
        try {
            const [heard] = isKept ? await work.desk.say([text]) : await work.desk.ask([text]);
            if (isKept) work.changed([heard]);
            return heard;
        } finally {
            isBusy = false;
        }
    }

    function showAnswer(/** @type {Heard} */ heard, /** @type {boolean} */ isKept) {
        const first = form.mark(heard.faults ?? [], heard.refused?.text);
        answer.show(heard, { kept: isKept });
        first?.take();
        if (isKept) showExtras();
    }

    async function submitTyped() {
        if (typed.value.trim() === '') {
            typed.focus();
            return;
        }
        const heard = await hear(typed.value, true);
        if (heard === null) return;
        const span = faultIn(heard);
        const [fault = ''] = faultsIn(heard);
        answer.show(heard, { kept: true, span });
        typedFault.textContent = typing.range(fault);
        if (heard.accepted) typed.value = '';
        if (span === null) return;
        typed.setSelectionRange(span.start, span.end);
        typed.focus();
        typed.scrollLeft = typed.scrollWidth * span.start / typed.value.length - typed.clientWidth / 2;
    }

    return {
        /** A security was chosen in the table. */
        chose(/** @type {{id: number} | null} */ security) {
            follow(security);
            showExtras();
        },
        /** Lines were said, here or elsewhere. */
        heard: (/** @type {Heard[]} */ all) => all.forEach((one) => said.add(one)),
        tookBack: (/** @type {string} */ text) => {
            said.takeBack(text);
            answer.clear();
            showExtras();
        },
        /** Another evening was opened; a new one begins with an admission. */
        opened(/** @type {boolean} */ isNew) {
            said.clear();
            pickCall(isNew ? 'admit' : FIRST);
        },
    };
}
