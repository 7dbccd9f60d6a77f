// Admissions from a file of comma-separated values with named columns, a security a row.
import { admissionsOf, admissionsText } from './admissions.mjs';
import { button, el, table } from './element.mjs';
import { makeBatch, sumOf } from './view-batch.mjs';
import { download, fileField } from './view-files.mjs';

const MOST_SHOWN = 200;
const TEMPLATE = 'admissions.csv';

/**
 * @param {HTMLElement} room
 * @param {import('./view-work.mjs').Work} work
 */
export function makeAdmissions(room, work) {
    const { desk, figures, typing } = work;
    const batch = makeBatch('Admissions', { figures, hasFigures: false, changed: count });
    const status = el('p', { class: 'verdict', role: 'status', id: 'admissions-status' });
    const faults = el('div', { class: 'scroll', id: 'admissions-faults', hidden: true });
    const text = el('textarea', {
        id: 'admissions-text', rows: 6, spellcheck: 'false', autocomplete: 'off', class: 'typed', wrap: 'off',
        oninput: forget,
    });
    const say = button('Say all', sayAll, { id: 'admissions-say', class: 'main', hidden: true });

    room.append(
        el('p', { class: 'dim' }, 'A file of comma-separated values, a security a row. The first row names the ' +
            'columns; the template has all of them. A price is in roubles, a rate in per cent, as in the form.'),
        el('div', { class: 'buttons' },
            button('Download the template', () => download(TEMPLATE, admissionsText([]), 'text/csv'),
                { id: 'admissions-template' }),
            ...fileField('admissions-file', 'Open the file of admissions…', openFile)),
        el('label', { for: 'admissions-text' }, 'Or paste its lines here'), text,
        el('div', { class: 'buttons' }, button('Read the admissions', read, { id: 'admissions-read', class: 'main' })),
        status, faults, batch.node, el('div', { class: 'buttons' }, say));

    function forget() {
        status.textContent = '';
        faults.hidden = true;
        batch.clear();
    }

    async function openFile(/** @type {File} */ opened) {
        text.value = await opened.text();
        read();
    }

    async function read() {
        status.textContent = 'Reading …';
        const { admissions, faults: wrong } = await admissionsOf(text.value, desk.ask);
        const rows = wrong.slice(0, MOST_SHOWN).map(({ at, column = '', text: words }) => (
            [figures.whole(at), { words: column }, { words: typing.range(words) }]));
        const head = ['row', { words: 'column' }, { words: 'what is wrong' }];
        faults.replaceChildren(table('What is wrong in the file', head, rows));
        faults.hidden = rows.length === 0;
        batch.show(admissions.map(({ line, heard }) => (
            { id: line.split(' ')[1], line, state: heard.refused?.text ?? 'new', isChosen: heard.accepted })));
        const good = admissions.filter(({ heard }) => heard.accepted).length;
        const can = `${figures.whole(good)} ${good === 1 ? 'admission' : 'admissions'} can be said`;
        const are = wrong.length === 1 ? 'thing is' : 'things are';
        status.textContent = wrong.length === 0 ? `${can}.`
            : `${can}; ${figures.whole(wrong.length)} ${are} wrong in the file.`;
        if (!say.hidden) say.focus();
    }

    function count() {
        const lineCount = batch.chosen().length;
        say.hidden = lineCount === 0;
        say.textContent = `Say ${figures.whole(lineCount)} ${lineCount === 1 ? 'line' : 'lines'}`;
    }

    async function sayAll() {
        say.hidden = true;
        status.textContent = 'Saying …';
        const heard = await desk.say(batch.chosen());
        batch.answer(heard);
        work.changed(heard);
        status.textContent = sumOf(heard, figures);
    }

    return {
        room,
        openFile,
        opened() {
            text.value = '';
            forget();
        },
    };
}
