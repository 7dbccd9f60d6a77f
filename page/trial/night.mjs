// The exchange's text, which the program `night` makes into lines: they are seen before they are performed, a bad line
// is named and shown, and a text of all securities goes through at once.
import assert from 'node:assert/strict';
import fs from 'node:fs';
import { at } from './browser.mjs';
import { BATCH, CARET, answerTo, bytesOf, fill, panel, saved } from './caseworker.mjs';
import { linesOf } from './house.mjs';
import { fitsPhone, openFile, openPage } from './member.mjs';
import { TABLE } from './shown.mjs';

/**
 * @typedef {import('./browser.mjs').Browser} Browser
 * @typedef {import('./house.mjs').House} House
 */

const DAY_TYPED = { DAY: '30', B: '0', M: '0', K0: '1', RRCL0: '0', RRCH0: '0', K1: '2', RRCL1: '0', RRCH1: '0',
    K2: '3', RRCL2: '0', RRCH2: '0' };
const DAY_WORDS = '30 0 0 1 0 0 2 0 0 3 0 0'.split(' ');
const EXCHANGE = '#panel-exchange form[data-call=evaluate]';

/** Waits until the page has said something of the exchange's text, and hands it out. */
async function saidOfText(/** @type {Browser} */ browser, /** @type {() => Promise<void>} */ act) {
    await browser.value(`void (${at('#exchange-status')}.textContent = '')`);
    await act();
    await browser.until(`${at('#exchange-status')}.textContent !== ''`);
    return browser.text('#exchange-status');
}

/** The exchange's text, typed and as a file: a line for each of its securities. */
export async function exchange(/** @type {Browser} */ browser, /** @type {House} */ house) {
    const file = house.example('evening.txt');
    const before = linesOf(fs.readFileSync(file));
    const text = fs.readFileSync(house.example('exchange.txt'));
    await openPage(browser, house);
    await openFile(browser, file);
    await panel(browser, 'exchange');
    await browser.click('#exchange-text');
    await browser.type('7;0;1;0;103;;;5');
    await browser.press('Enter');
    await browser.type('7;0;1;0;103;104');
    const read = () => saidOfText(browser, () => browser.click('#exchange-read'));
    assert.match(await read(), /^The day is not whole\. Day \(DAY\) is missing\./);
    assert.equal(await browser.value('document.activeElement.name'), 'DAY');
    await fill(browser, EXCHANGE, DAY_TYPED);
    assert.match(await read(), /^Refused \(15\): line 2 of the exchange’s text is bad/);
    assert.equal(await browser.text('#exchange-bad code'), '7;0;1;0;103;104');
    assert.deepEqual(await browser.value(CARET), ['exchange-text', '7;0;1;0;103;104']);
    assert.equal((await browser.value(BATCH('exchange'))).length, 0);
    await browser.picture(house.pictureOf(browser.name, 'exchange-bad'));
    await fitsPhone(browser, house, 'exchange-bad');
    // The keyboard stays in a number of the day that is corrected meanwhile.
    await browser.click(`${EXCHANGE} [name=M]`);
    await browser.write('1');
    await browser.write('0');
    assert.equal(await browser.value(`${at(`${EXCHANGE} [name=M]`)}.value`), '0');
    assert.equal(await browser.value('document.activeElement.name'), 'M');
    await saidOfText(browser, () => browser.give('#exchange-file', house.example('exchange.txt')));
    assert.equal(await browser.value(`${at('#exchange-bad')}.hidden`), true);
    await browser.click('#exchange-others');
    assert.match(await read(), /^2 securities have rows\. Nothing is performed yet\.$/);
    const shown = async () => (await browser.value(BATCH('exchange'))).map((/** @type {any} */ one) => one.line);
    const ids = (await browser.value(TABLE)).map((/** @type {any} */ { id }) => id);
    assert.deepEqual(await shown(), linesOf(house.run('night', text, ...DAY_WORDS, ...ids)));
    assert.equal((await shown()).length, ids.length);
    assert.equal(await browser.value(`${at('#unsaved')}.hidden`), true, 'a line is performed before it is said');
    await browser.click('#exchange-others');
    await browser.until(`(${BATCH('exchange')}).length === 2`);
    const lines = linesOf(house.run('night', text, ...DAY_WORDS));
    assert.deepEqual(await shown(), lines);
    await fitsPhone(browser, house, 'exchange');
    await browser.tabTo('#exchange-say');
    await browser.press('Enter');
    await browser.until(`(${BATCH('exchange')}).every(({ answer }) => answer !== '')`);
    const kept = [...before];
    for (const { line, answer } of await browser.value(BATCH('exchange'))) {
        assert.equal(answer, answerTo(house, kept, line));
        kept.push(line);
    }
    await browser.picture(house.pictureOf(browser.name, 'exchange'));
    assert.deepEqual(linesOf(await saved(browser)), kept);
    return `${lines.length} securities of ${text.length} bytes, ${ids.length} with those without rows; a bad line is ` +
        'named and shown';
}

const SECURITIES = 512;
const ROWS = 16;
const MADE_MOST = 1000; // milliseconds from the press until the lines are drawn
const SAID_MOST = 3000; // and until all answers are
const STATICS = '10 100 300 1000 500 5 2 5 8 50 500 700 900 4000 200 25 2000 2000 1000 60 1 1 120 1 2 0';

/** Takes the time from a press of Enter or a click until something holds and is drawn. */
const WATCH = (/** @type {string} */ name, /** @type {string} */ holds) => `(() => {
    window.times ??= {};
    const room = document.getElementById('panel-exchange');
    let began = null;
    const press = () => { began ??= performance.now(); };
    for (const kind of ['click', 'keydown']) document.addEventListener(kind, press, { capture: true, once: true });
    const watch = new MutationObserver(() => {
        if (began === null || !(${holds})) return;
        watch.disconnect();
        requestAnimationFrame(() => setTimeout(() => { times.${name} = performance.now() - began; }));
    });
    watch.observe(room, { childList: true, subtree: true, characterData: true });
})()`;

/** As many securities as a table takes, with as many rows as each may have. */
export async function great(/** @type {Browser} */ browser, /** @type {House} */ house) {
    const ids = Array.from({ length: SECURITIES }, (_, index) => 1001 + index);
    const admissions = ids.map((id) => `admit ${id} 3 1000000 1000000 20000 600 ${STATICS}`);
    const rowOf = (/** @type {number} */ id, /** @type {number} */ row) => (
        `${id};${row};1.0000;7.30;${100 + (id + row) % 5}.2500;99.9500;105.0500;${1 + row}\n`);
    const rows = Array.from({ length: ROWS }, (_, row) => row);
    const text = Buffer.from(rows.flatMap((row) => ids.map((id) => rowOf(id, row))).join(''));
    await openPage(browser, house);
    await openFile(browser, house.fileOf('admitted.txt', bytesOf(admissions)));
    await panel(browser, 'exchange');
    await saidOfText(browser, () => browser.give('#exchange-file', house.fileOf('great-exchange.txt', text)));
    await browser.click(`${EXCHANGE} [name=DAY]`);
    await fill(browser, EXCHANGE, DAY_TYPED);
    await browser.value(WATCH('made', "room.querySelectorAll('tr[data-id]').length > 0"));
    await browser.press('Enter');
    await browser.until('times.made !== undefined');
    const lines = linesOf(house.run('night', text, ...DAY_WORDS));
    assert.equal(lines.length, SECURITIES);
    const shown = (await browser.value(BATCH('exchange'))).map((/** @type {any} */ { line }) => line);
    assert.deepEqual(shown, lines);
    await browser.tabTo('#exchange-say');
    await browser.value(WATCH('said', "room.querySelectorAll('tr.accepted, tr.refused').length === " + SECURITIES));
    await browser.press('Enter');
    await browser.until('times.said !== undefined');
    const answers = linesOf(house.run('evening', bytesOf([...admissions, ...lines]))).slice(SECURITIES);
    const told = (await browser.value(BATCH('exchange'))).map((/** @type {any} */ { answer }) => answer);
    assert.deepEqual(told, answers);
    assert.ok(answers.every((answer) => answer.startsWith('0 ')));
    await browser.picture(house.pictureOf(browser.name, 'great-night'));
    const { made, said } = await browser.value('times');
    const words = `${SECURITIES} securities with ${ROWS} rows each, ${text.length} bytes: lines made and drawn in ` +
        `${Math.round(made)} ms, said and drawn in ${Math.round(said)} ms`;
    assert.ok(made <= MADE_MOST && said <= SAID_MOST, `${words}; ${MADE_MOST} and ${SAID_MOST} ms are allowed`);
    await panel(browser, 'save');
    await saved(browser); // the next trial opens another page, and nothing is to be lost
    return words;
}
