// What the caseworker does with the page: says lines by forms, sees a refusal, asks what if, takes a line back, saves
// and opens again. The released program for this machine answers the same lines, and the page has to show what it
// answers. Admissions are tried in admitting.mjs, the exchange's text in night.mjs.
import assert from 'node:assert/strict';
import fs from 'node:fs';
import { at } from './browser.mjs';
import { FORMS } from './forms.mjs';
import { linesOf } from './house.mjs';
import { PHONE, fits, openFile, openPage } from './member.mjs';
import { TABLE, lookAtAnswer, lookAtReasons, toldOf, wholeOf } from './shown.mjs';

/**
 * @typedef {import('./browser.mjs').Browser} Browser
 * @typedef {import('./house.mjs').House} House
 */

export const ANSWER = '#panel-say [data-answer]';
export const bytesOf = (/** @type {string[]} */ lines) => (
    Buffer.from(lines.map((line) => `${line}\n`).join(''), 'latin1'));

/** What the program answers to a line behind others. */
export function answerTo(/** @type {House} */ house, /** @type {string[]} */ before, /** @type {string} */ line,
    program = 'evening') {
    return linesOf(house.run(program, bytesOf([...before, line]))).at(-1);
}

/** Opens a panel, if it is not open. */
export async function panel(/** @type {Browser} */ browser, /** @type {string} */ name) {
    await browser.value('scrollTo(0, 0)'); // the head of the page stays, and may stand over the tabs
    if (await browser.value(`${at(`#panel-${name}`)}.hidden`)) await browser.click(`#tab-${name}`);
    await browser.until(`!${at(`#panel-${name}`)}.hidden`);
}

/** Starts an evening with nothing in it. */
export async function newEvening(/** @type {Browser} */ browser, /** @type {House} */ house) {
    await openPage(browser, house);
    await browser.click('#new-evening');
    await browser.until(`!${at('#work')}.hidden`);
}

/** Types a form's values, from field to field by the key Tab. */
export async function fill(/** @type {Browser} */ browser, /** @type {string} */ form,
    /** @type {Record<string, string>} */ values, row = '') {
    for (const [name, typed] of Object.entries(values)) {
        const selector = `${form} [name="${name}"]${row === '' ? ':not([data-row])' : `[data-row="${row}"]`}`;
        await browser.tabTo(selector);
        await browser.write(typed);
    }
}

/** Fills a call's form by keys, with its rows. */
export async function fillCall(/** @type {Browser} */ browser, /** @type {import('./forms.mjs').Said} */ said) {
    const { call, values, rows = [] } = said;
    const form = `#panel-say form[data-call=${call}]`;
    await fill(browser, form, values);
    for (const [index, row] of rows.entries()) {
        const isThere = `${at(`${form} [data-row="${index + 1}"]`)} !== null`;
        if (!await browser.value(isThere)) {
            await browser.tabTo(`${form} [data-add]`);
            await browser.press('Enter');
        }
        await fill(browser, form, row, String(index + 1));
    }
}

/** Presses a key, and waits for the answer in a room. */
export async function answered(/** @type {Browser} */ browser, /** @type {() => Promise<void>} */ act, room = ANSWER) {
    await browser.value(`void (${at(room)}.dataset.answer = 'not yet')`);
    await act();
    await browser.until(`${at(room)}.dataset.answer !== 'not yet'`);
    return browser.value(`${at(room)}.dataset.answer`);
}

/** Says what a form has: by Enter where the keyboard is, or by the button behind a choice, which takes Enter itself. */
async function enter(/** @type {Browser} */ browser) {
    if (await browser.value("document.activeElement.localName === 'select'")) await browser.tabTo('#say');
    await browser.press('Enter');
}

/** Types a line as it stands. */
export async function say(/** @type {Browser} */ browser, /** @type {string} */ line) {
    await browser.click('#line');
    await browser.write(line);
    return answered(browser, () => browser.press('Enter'));
}

/** A form for each call: what is typed becomes the line, and the program's answer is there. */
export async function forms(/** @type {Browser} */ browser, /** @type {House} */ house) {
    await newEvening(browser, house);
    /** @type {string[]} */
    const kept = [];
    let looked = 0;
    for (const said of FORMS) {
        await browser.click(`label:has(#say-call-${said.call})`);
        await fillCall(browser, said);
        assert.equal(await browser.text('#panel-say [data-line]'), said.line);
        const answer = await answered(browser, () => enter(browser));
        assert.equal(answer, answerTo(house, kept, said.line), said.line);
        assert.equal(await browser.value(`${at(ANSWER)}.dataset.accepted`), 'true', said.line);
        looked += await lookAtAnswer(browser, ANSWER, said.line, answer);
        kept.push(said.line);
    }
    await copies(browser, kept);
    await browser.picture(house.pictureOf(browser.name, 'form'));
    const text = await saved(browser);
    assert.deepEqual(linesOf(text), kept);
    const fields = FORMS.reduce((sum, { values }) => sum + Object.keys(values).length, 0);
    return `${FORMS.length} calls, ${fields} fields and their rows, ${looked} figures of the answers`;
}

/** The statics of another security in an admission, and the last evaluation in the next. */
async function copies(/** @type {Browser} */ browser, /** @type {string[]} */ kept) {
    const wordsOf = (/** @type {string} */ call) => String(kept.find((line) => line.startsWith(call))).split(' ');
    await browser.click('label:has(#say-call-admit)');
    await browser.click('#clear');
    await browser.tabTo('#copy-statics', 'Shift+Tab');
    await browser.type('security 21');
    const admission = (await browser.text('#panel-say [data-line]')).split(' ');
    assert.deepEqual(admission.slice(7), wordsOf('admit').slice(7));
    assert.deepEqual(admission.slice(1, 7), ['ID', 'DAY', 'P1', 'P2', 'S', 'TENTATIVE']);
    await browser.click('label:has(#say-call-evaluate)');
    await browser.click('#start-from-last');
    const [call, id, day, ...rest] = wordsOf('evaluate');
    assert.equal(await browser.text('#panel-say [data-line]'), [call, id, Number(day) + 1, ...rest].join(' '));
}

/** The evening's text as it is saved. */
export async function saved(/** @type {Browser} */ browser) {
    await panel(browser, 'save');
    return (await browser.downloaded(() => browser.click('#save-text'))).bytes;
}

/** The fields that are marked, with their rows. */
export const MARKED = `[...document.querySelectorAll('#panel-say [aria-invalid=true]')].map((one) => (
    one.name + (one.dataset.row === undefined ? '' : ' ' + one.dataset.row)))`;

/** What the keyboard is in: the field's name, and what is chosen of it. */
export const CARET = `(() => {
    const { name, id, value, selectionStart, selectionEnd } = document.activeElement;
    return [name || id, typeof selectionStart === 'number' ? value.slice(selectionStart, selectionEnd) : ''];
})()`;

/** What stands in the rows of many lines. */
export const BATCH = (/** @type {string} */ name) => `[...document.querySelectorAll('#panel-${name} tr[data-id]')]
    .map((row) => ({
        line: row.querySelector('[data-line]').textContent,
        answer: row.querySelector('[data-answer]').dataset.answer,
    }))`;

/** Lines that the program refuses: the words, what is marked, and that nothing is kept. */
export async function refused(/** @type {Browser} */ browser, /** @type {House} */ house) {
    const file = house.example('evening.txt');
    const before = linesOf(fs.readFileSync(file));
    await openPage(browser, house);
    await openFile(browser, file);
    await panel(browser, 'say');
    await browser.click('label:has(#say-call-evaluate)');
    const good = { ID: '7', DAY: '20', B: '0', M: '0', K0: '1', RRCL0: '0', RRCH0: '0', K1: '2', RRCL1: '0', RRCH1: '0',
        K2: '3', RRCL2: '0', RRCH2: '0' };
    const row = { T: '0', RC: '1', REPO: '0', CLOSE: '100', BID: '', ASK: '', VOLUME: '5' };
    await fillCall(browser, { call: 'evaluate', values: good, rows: [row, row], line: '' });
    const form = '#panel-say form[data-call=evaluate]';
    const cases = /** @type {[Record<string, string>, string, RegExp, string[], string][]} */ ([
        [{ BID: '101', ASK: '99' }, '2', /Refused \(16\): a row has its bid above its ask, in row 2/, ['BID 2'],
            '16 row 2'],
        [{ BID: '', ASK: '' }, '2', /./, [], ''],
        [{ RRCL1: '5' }, '', /Refused \(6\): a number is out of its range, in term 1/, ['RRCH1'], '6 term 1'],
        [{ DAY: '9', RRCL1: '0' }, '', /Refused \(5\): the day is not after the last one/, ['DAY'], '5 none'],
        [{ DAY: '20', B: '31' }, '', /Refused \(6\)/, ['B'], '6 none'],
        [{ ID: '8', B: '0' }, '', /Refused \(1\): there is no security with this id/, ['ID'], '1 none'],
    ]);
    for (const [values, at1, words, marked, why] of cases) {
        await browser.click(`${form} [name=ID]`);
        await fill(browser, form, values, at1);
        if (why === '') continue;
        const line = await browser.text('#panel-say [data-line]');
        assert.equal(answerTo(house, before, line, 'why'), why);
        assert.equal(await answered(browser, () => browser.press('Enter')), answerTo(house, before, line));
        assert.match(await browser.text(`${ANSWER} .verdict`), words);
        assert.deepEqual(await browser.value(MARKED), marked, why);
    }
    await browser.picture(house.pictureOf(browser.name, 'refused'));
    // What spells no number is not sent: the page says which field it is.
    await fill(browser, form, { ID: '7' });
    await fill(browser, form, { CLOSE: 'many' }, '1');
    await browser.press('Enter');
    assert.match(await browser.text(ANSWER), /The line is not whole.*Row 1: Close/);
    assert.deepEqual(await browser.value(MARKED), ['CLOSE 1']);
    assert.equal(await browser.value(`${at('#unsaved')}.hidden`), true);
    assert.match(await say(browser, 'hello'), /^bad \d+$/);
    assert.match(await browser.text(`${ANSWER} .verdict`), /^Refused: 'hello' is no call/);
    assert.deepEqual(linesOf(await saved(browser)), before);
    return `${cases.length - 1} lines in words, with the row, term or field; nothing is kept of them`;
}

/** What if: before and after side by side, nothing kept, then kept. */
export async function whatIf(/** @type {Browser} */ browser, /** @type {House} */ house) {
    const file = house.example('evening.txt');
    const before = linesOf(fs.readFileSync(file));
    await openPage(browser, house);
    await openFile(browser, file);
    await browser.click('#table tbody button[data-id="16"]');
    await panel(browser, 'what-if');
    const place = before.findLastIndex((line) => line.startsWith('evaluate 16 '));
    const form = '#panel-what-if form[data-call=evaluate]';
    const close = `${form} [name=CLOSE][data-row="1"]`;
    await browser.click(close);
    await browser.write('150');
    await browser.press('Enter');
    await browser.until(`${at('#panel-what-if [data-after]')} !== null`);
    const words = before[place].split(' ');
    words[17] = '1500000';
    const recordOf = (/** @type {string} */ line) => answerTo(house, before.slice(0, place), line).split(' ');
    const [was, is] = [before[place], words.join(' ')].map(recordOf);
    assert.equal(is[0], '0');
    const rows = await browser.value(`[...document.querySelectorAll('#panel-what-if tr')]
        .filter((row) => row.querySelector('[data-after]') !== null)
        .map((row) => [...['th', '[data-before]', '[data-after]'].map((one) => row.querySelector(one).textContent),
            row.classList.contains('changed')])
        .map(([name, before, after, isChanged]) => [name, before, after.replace('changed: ', ''), isChanged])`);
    const places = /** @type {Record<string, [number, number]>} */ ({
        Day: [3, 0], 'Evaluation, roubles': [4, 4], Volatility: [6, 4], 'Tentative rate': [7, 2], 'Rate 1': [9, 2],
        'Rate 2': [10, 2], 'Rate 3': [11, 2], 'Range 1, upper': [12, 4], 'Range 2, upper': [13, 4],
        'Range 3, upper': [14, 4], 'Range 1, lower': [15, 4], 'Range 2, lower': [16, 4], 'Range 3, lower': [17, 4],
        'Band 0, lower': [21, 4], 'Band 0, upper': [22, 4], 'Band 1, lower': [28, 4], 'Band 1, upper': [29, 4],
        'Band 2, lower': [35, 4], 'Band 2, upper': [36, 4],
    });
    let looked = 0;
    for (const [name, old, next, isChanged] of rows) {
        assert.equal(isChanged, old !== next, name);
        if (places[name] === undefined) continue;
        const [word, decimals] = places[name];
        assert.deepEqual([wholeOf(old, decimals), wholeOf(next, decimals)], [was[word], is[word]], name);
        looked += 2;
    }
    assert.equal(looked, 2 * Object.keys(places).length);
    for (const [line, room] of [[before[place], 1], [words.join(' '), 2]]) {
        const lines = [...before.slice(0, place), String(line)];
        const answers = ['evening', 'why'].map((program) => linesOf(house.run(program, bytesOf(lines))));
        const told = toldOf(lines, ...answers).get('16');
        looked += await lookAtReasons(browser, `#panel-what-if .reasons section:nth-of-type(${room}) ul`, told);
    }
    await browser.picture(house.pictureOf(browser.name, 'what-if'));
    assert.equal(await browser.value(`${at('#unsaved')}.hidden`), true, 'a what-if is kept without being told so');
    await browser.tabTo('#adopt');
    await browser.press('Enter');
    await browser.until(`!${at('#unsaved')}.hidden`);
    const kept = before.map((line, index) => (index === place ? words.join(' ') : line));
    assert.deepEqual(linesOf(await saved(browser)), kept);
    await browser.click('#undo');
    await browser.until(`!${at('#unsaved')}.hidden`);
    assert.deepEqual(linesOf(await saved(browser)), before);
    return `${looked} figures before and after; kept when told so, and taken back`;
}

/** Saved and opened again it is the same sheet; the messages are those of the program; a line is taken back. */
export async function saveAndUndo(/** @type {Browser} */ browser, /** @type {House} */ house) {
    const file = house.example('evening.txt');
    const before = linesOf(fs.readFileSync(file));
    await openPage(browser, house);
    await openFile(browser, file);
    await panel(browser, 'say');
    const first = await browser.value(TABLE);
    const lines = ['evaluate 7 20 0 0 1 0 0 2 0 0 3 0 0 0 10000 0 1100000 0 0 5', 'move 7 0', 'read 7'];
    const kept = [...before];
    for (const line of lines) {
        assert.equal(await say(browser, line), answerTo(house, kept, line));
        kept.push(line);
    }
    assert.equal(await browser.text('#unsaved'), '3 lines not saved');
    const now = await browser.value(TABLE);
    assert.notDeepEqual(now, first);
    // The page asks before the lines are lost: by leaving, and by opening another file.
    assert.equal(await browser.leave(), true, 'it does not ask before three lines are lost');
    await browser.give('#file', house.example('why.txt'));
    await browser.until(`${at('#ask')}?.open`);
    await browser.press('Escape');
    await browser.until(`${at('#ask')} === null`);
    assert.deepEqual(await browser.value(TABLE), now);
    await panel(browser, 'save');
    const { name, bytes } = await browser.downloaded(() => browser.click('#save-text'));
    assert.equal(name, 'evening.txt');
    assert.deepEqual(bytes, bytesOf(kept));
    const messages = await browser.downloaded(() => browser.click('#save-broadcast'));
    assert.deepEqual(messages.bytes, house.run('broadcast', bytesOf(kept)));
    assert.equal(await browser.value(`${at('#unsaved')}.hidden`), true);
    await openFile(browser, house.fileOf('again.txt', bytes));
    assert.deepEqual(await browser.value(TABLE), now);
    for (let left = 3; left > 0; left -= 1) {
        await browser.click('#undo');
        await browser.until(`${at('#unsaved')}.textContent.startsWith('${4 - left} ')`);
    }
    assert.deepEqual(await browser.value(TABLE), first);
    assert.deepEqual(linesOf(await saved(browser)), before);
    assert.equal(await browser.leave(), false, 'it asks though all lines are saved');
    return `${bytes.length} bytes of text, ${messages.bytes.length} of messages; three lines taken back; it asks first`;
}

/** From the top of a new page by keys alone: an evening, a line by its form, saved. */
export async function byKeyboard(/** @type {Browser} */ browser, /** @type {House} */ house) {
    await openPage(browser, house);
    await browser.tabTo('#new-evening');
    await browser.press('Enter');
    await browser.until(`!${at('#work')}.hidden`);
    await browser.tabTo('#panel-say input[name=call]:checked');
    while (!await browser.value(`${at('#say-call-admit')}.checked`)) await browser.press('ArrowLeft');
    const [admit] = FORMS;
    await fillCall(browser, admit);
    assert.equal(await answered(browser, () => enter(browser)), '0');
    await browser.tabTo('#tab-say', 'Shift+Tab');
    for (const name of ['exchange', 'admissions', 'what-if', 'save']) {
        await browser.press('ArrowRight');
        assert.equal(await browser.value(`${at(`#panel-${name}`)}.hidden`), false);
    }
    await browser.tabTo('#save-text');
    const { bytes } = await browser.downloaded(() => browser.press('Enter'));
    assert.deepEqual(linesOf(bytes), [admit.line]);
    await browser.tabTo('#undo', 'Shift+Tab');
    await browser.press('Enter');
    await browser.until(`!${at('#unsaved')}.hidden`);
    assert.deepEqual(linesOf(await saved(browser)), []);
    return 'a new evening, a form of 32 fields, the tabs, saving, undo';
}

/** Controls without a name that a screen reader could say. */
const NAMELESS = `[...document.querySelectorAll('button, input, select, textarea, [role=region], svg[role=img]')]
    .filter((one) => !one.closest('[hidden]'))
    .filter((one) => !(one.labels?.length > 0 || one.getAttribute('aria-label') || one.textContent.trim()))
    .map((one) => one.outerHTML.slice(0, 120))`;

/** Every panel on a phone, and every control with a name. */
export async function onPhone(/** @type {Browser} */ browser, /** @type {House} */ house) {
    await openPage(browser, house);
    await openFile(browser, house.example('evening.txt'));
    await browser.click('#table tbody button[data-id="16"]');
    await browser.size(...PHONE);
    for (const name of ['say', 'exchange', 'admissions', 'what-if', 'save']) {
        await panel(browser, name);
        await fits(browser, `the panel ${name}`);
        assert.deepEqual(await browser.value(NAMELESS), [], `${name}: a control has no name`);
    }
    await panel(browser, 'say');
    for (const { call } of FORMS) {
        await browser.click(`label:has(#say-call-${call})`);
        await fits(browser, `the form ${call}`);
        assert.deepEqual(await browser.value(NAMELESS), [], `${call}: a control has no name`);
    }
    await browser.click('label:has(#say-call-evaluate)');
    await browser.picture(house.pictureOf(browser.name, 'phone-form'));
    await browser.size(1500, 1050);
    return `5 panels and ${FORMS.length} forms at ${PHONE[0]} pixels, every control named`;
}
