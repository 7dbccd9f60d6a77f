// As many securities as the table takes, with a year of days: how long the page takes to open them, and to answer a
// typed line. Times are taken in the page itself, from the press of the key until the answer is drawn. Of each kind of
// line three are typed, and the middle one counts: another program on the machine may hold up one of them.
import assert from 'node:assert/strict';
import { makeEvening } from '../tests/evenings.mjs';
import { at } from './browser.mjs';
import { panel } from './caseworker.mjs';
import { linesOf } from './house.mjs';
import { openFile, openPage } from './member.mjs';
import { TABLE, lookAtTable, toldOf } from './shown.mjs';

const SECURITIES = 512;
const DAYS = 250;
const OPENED_MOST = 5000; // milliseconds
const ANSWERED_MOST = 100;

/** Takes the time from the file's choice until the sheet is drawn. */
const WATCH_OPENING = (/** @type {string} */ name) => `(() => {
    window.times = {};
    const drawn = (act) => requestAnimationFrame(() => setTimeout(act));
    document.addEventListener('change', () => { times.began ??= performance.now(); }, { capture: true, once: true });
    const summary = document.getElementById('summary');
    new MutationObserver((_, watch) => {
        if (!summary.textContent.startsWith('${name}: ')) return;
        watch.disconnect();
        drawn(() => { times.opened = performance.now() - times.began; });
    }).observe(summary, { childList: true, characterData: true, subtree: true });
})()`;

/** Takes the time from each press of Enter until the answer is drawn. */
const WATCH_LINES = `(() => {
    times.lines = [];
    let began = 0;
    document.addEventListener('keydown', (event) => { if (event.key === 'Enter') began = performance.now(); }, true);
    new MutationObserver(() => requestAnimationFrame(() => setTimeout(() => {
        if (began > 0) times.lines.push(performance.now() - began);
        began = 0;
    }))).observe(document.querySelector('#panel-say [data-answer]'), { attributeFilter: ['data-answer'] });
})()`;

/** Lines of each kind, every one behind those before it: a refused one changes nothing. */
function linesBehind(/** @type {string[]} */ lines) {
    const lastOf = (/** @type {number} */ id) => lines.findLast((line) => line.startsWith(`evaluate ${id} `)) ?? '';
    const ids = [1001, 1256, 1512];
    const evaluations = ids.map((id) => lastOf(id).replace(/^(evaluate \d+) \d+/, `$1 ${DAYS + 2}`));
    return {
        evaluate: evaluations,
        move: ids.map((id) => `move ${id} 0`),
        quote: ids.map((id) => `quote ${id} 36000 0 0 0`),
        read: ids.map((id) => `read ${id}`),
        refused: evaluations, // the day is not after the last one
    };
}

const middleOf = (/** @type {number[]} */ numbers) => (
    [...numbers].sort((one, other) => one - other)[Math.floor(numbers.length / 2)]);

export async function greatEvening(/** @type {import('./browser.mjs').Browser} */ browser,
    /** @type {import('./house.mjs').House} */ house) {
    const lines = makeEvening({ seed: 5, securities: SECURITIES, days: DAYS, plain: true });
    const bytesOf = (/** @type {string[]} */ some) => Buffer.from(some.map((line) => `${line}\n`).join(''), 'latin1');
    await openPage(browser, house);
    await browser.value(WATCH_OPENING('great.txt'));
    await openFile(browser, house.fileOf('great.txt', bytesOf(lines)));
    await browser.until('times.opened !== undefined');
    const opened = Math.round(await browser.value('times.opened'));
    await panel(browser, 'say');
    await browser.value(WATCH_LINES);
    await browser.click('#line');
    const kinds = linesBehind(lines);
    const said = Object.values(kinds).flat();
    const answers = linesOf(house.run('evening', bytesOf([...lines, ...said])));
    for (const [index, line] of said.entries()) {
        await browser.write(line);
        await browser.press('Enter');
        await browser.until(`times.lines.length === ${index + 1}`);
        const answer = await browser.value(`${at('#panel-say [data-answer]')}.dataset.answer`);
        assert.equal(answer, answers[lines.length + index], line);
    }
    const times = (await browser.value('times.lines')).map(Math.round);
    const middles = Object.entries(kinds).map(([kind, some], index) => (
        `${kind} ${middleOf(times.slice(index * some.length, (index + 1) * some.length))}`));
    await browser.value("void ['ranges', 'bands'].forEach((name) => document.getElementById('show-' + name).click())");
    const looked = lookAtTable(await browser.value(TABLE), toldOf([...lines, ...said], answers));
    const words = `${lines.length} lines opened in ${opened} ms; a typed line answered and drawn in (ms) ` +
        `${middles.join(', ')}, the slowest of ${times.length} in ${Math.max(...times)}; ${looked} figures`;
    assert.ok(opened <= OPENED_MOST, `${words}: at most ${OPENED_MOST} ms are allowed for the opening`);
    for (const kind of middles) {
        assert.ok(Number(kind.split(' ')[1]) <= ANSWERED_MOST, `${words}: ${ANSWERED_MOST} ms are allowed for a line`);
    }
    return words;
}
