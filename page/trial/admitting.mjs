// Admissions: by the form, by a typed line and from a file. Of one that is refused the page names the number that the
// program names, by its field, its place in the line, or its row and column.
import assert from 'node:assert/strict';
import { at } from './browser.mjs';
import {
    ANSWER, BATCH, CARET, MARKED, answerTo, answered, bytesOf, fill, fillCall, newEvening, panel, saved, say,
} from './caseworker.mjs';
import { FORMS } from './forms.mjs';
import { linesOf } from './house.mjs';
import { fitsPhone, openFile } from './member.mjs';
import { TABLE } from './shown.mjs';

/**
 * @typedef {import('./browser.mjs').Browser} Browser
 * @typedef {import('./house.mjs').House} House
 */

/** A refused admission: the field that `why` names, by the form, in a typed line and in the list of refused lines. */
export async function refused(/** @type {Browser} */ browser, /** @type {House} */ house) {
    await newEvening(browser, house);
    await browser.click('label:has(#say-call-admit)');
    const [admit] = FORMS;
    await fillCall(browser, admit);
    const form = '#panel-say form[data-call=admit]';
    // What is typed, the number that is named, what the page says of it, what is marked and what the caret is in.
    const cases = /** @type {[Record<string, string>, number, RegExp, RegExp, string[], string[]][]} */ ([
        [{ LOT: '101' }, 7, /: Lot \(LOT\), number 7 of the line\.$/, /^Lot \(LOT\) must be from 1 to 100 pieces\.$/,
            ['LOT'], ['LOT', '101']],
        [{ LOT: '10', P1: '100.0005' }, 3, /: Latest evaluation \(P1\), number 3 of the line\.$/,
            /^Latest evaluation \(P1\) must have at most .*; its range is 0\.0001 to 1,000,000 roubles\.$/, ['P1'],
            ['P1', '100.0005']],
        [{ UEVENING: '3601' }, 29, /: Alert after, evening \(UEVENING\), number 29 of the line\.$/,
            /^Alert after, evening \(UEVENING\) must be from 1 to 3,600 seconds\.$/, ['P1', 'UEVENING'],
            ['UEVENING', '3601']],
        [{ P1: '100', RH2: '1', UEVENING: '120' }, 14, /: Horizon 2 \(RH2\), number 14 of the line\.$/,
            /^Horizon 2 \(RH2\) must not be below RH1; its range is 1 to 30 days\.$/, ['RH2'], ['RH2', '1']],
    ]);
    for (const [values, number, verdict, item, marked, caret] of cases) {
        await browser.click(`${form} [name=ID]`);
        await fill(browser, form, values);
        const line = await browser.text('#panel-say [data-line]');
        assert.equal(answerTo(house, [], line, 'why'), `4 field ${number}`);
        assert.equal(await answered(browser, () => browser.press('Enter')), '4');
        assert.match(await browser.text(`${ANSWER} .verdict`), verdict);
        assert.match(await browser.text(`${ANSWER} li`), item);
        assert.deepEqual(await browser.value(MARKED), marked);
        assert.deepEqual(await browser.value(CARET), caret);
    }
    await browser.picture(house.pictureOf(browser.name, 'refused-admission'));
    await fitsPhone(browser, house, 'refused-admission');
    await browser.write('5'); // the caret is there: what is typed stands in place of the fault
    assert.equal(await answered(browser, () => browser.press('Enter')), '0');
    assert.deepEqual(await browser.value(MARKED), []);
    const typed = admit.line.replace('admit 21', 'admit  22').replace(/ 0$/, ' 2');
    assert.equal(await say(browser, typed), '4');
    assert.deepEqual(await browser.value(CARET), ['line', '2']);
    assert.equal(await browser.value(`${at('#line')}.selectionStart`), typed.length - 1);
    assert.equal(await browser.text(`${ANSWER} mark`), '2');
    assert.equal(await browser.text('#line-fault'), 'Outside prices (USEEXTERNAL) must be no or yes.');
    const named = /: Outside prices \(USEEXTERNAL\), number 32 of the line\.$/;
    assert.match(await browser.text(`${ANSWER} .verdict`), named);
    await browser.picture(house.pictureOf(browser.name, 'refused-line'));
    await fitsPhone(browser, house, 'refused-line');
    assert.deepEqual(linesOf(await saved(browser)), [admit.line]);
    // The same line in a text that is opened: the list of refused lines names the number, and shows it.
    await openFile(browser, house.fileOf('refused.txt', bytesOf([admit.line, typed])));
    const row = '#notices details:has(mark) tbody tr';
    assert.match(await browser.text(row), /Outside prices \(USEEXTERNAL\), number 32 of the line/);
    assert.equal(await browser.text(`${row} mark`), '2');
    return `${cases.length} fields of a form, a typed line and a line of a text, each named as why names it`;
}

/** Admissions from a file with named columns, in another order than the form's. */
export async function fromFile(/** @type {Browser} */ browser, /** @type {House} */ house) {
    await newEvening(browser, house);
    await panel(browser, 'admissions');
    const { name, bytes } = await browser.downloaded(() => browser.click('#admissions-template'));
    assert.equal(name, 'admissions.csv');
    const heads = bytes.toString().trim().split(',');
    const [{ values, line }] = FORMS;
    assert.deepEqual(heads.map((head) => head.replace(/ \(.*/, '')), Object.keys(values));
    assert.ok(heads.includes('P1 (roubles)') && heads.includes('S (per cent)'));
    const order = heads.map((_, index) => heads.length - 1 - index);
    const rowOf = (/** @type {Record<string, string>} */ other) => (
        order.map((index) => ({ ...values, ...other })[Object.keys(values)[index]]).join(','));
    const csv = [order.map((index) => heads[index]).join(','), rowOf({}), rowOf({ ID: '22' }),
        rowOf({ ID: '23', LOT: '101' }), rowOf({ ID: '24', MIN2: '4', USEEXTERNAL: '2' })].join('\r\n');
    await browser.give('#admissions-file', house.fileOf('new.csv', `${csv}\r\n`));
    await browser.until(`(${BATCH('admissions')}).length > 0`);
    assert.equal(answerTo(house, [], line.replace(' 600 10 ', ' 600 101 '), 'why'), '4 field 7');
    assert.equal(answerTo(house, [], line.replace(' 700 900 ', ' 400 900 ').replace(/ 0$/, ' 2'), 'why'), '4 field 32');
    const wrong = await browser.value(`[...document.querySelectorAll('#admissions-faults tbody tr')]
        .map((row) => [...row.cells].map((cell) => cell.textContent))`);
    assert.deepEqual(wrong, [
        ['4', 'Z, LOT', 'Lot (LOT) must be from 1 to 100 pieces.'],
        ['5', 'A, USEEXTERNAL', 'Outside prices (USEEXTERNAL) must be no or yes.'],
        ['5', 'O, MIN2', 'Least rate 2 (MIN2) must not be below MIN1.'],
    ]);
    await fitsPhone(browser, house, 'admissions');
    const lines = [line, line.replace('admit 21', 'admit 22')];
    assert.deepEqual((await browser.value(BATCH('admissions'))).map((/** @type {any} */ one) => one.line), lines);
    await browser.tabTo('#admissions-say');
    await browser.press('Enter');
    await browser.until(`(${BATCH('admissions')}).every(({ answer }) => answer !== '')`);
    const answers = (await browser.value(BATCH('admissions'))).map((/** @type {any} */ one) => one.answer);
    assert.deepEqual(answers, ['0', '0']);
    assert.deepEqual((await browser.value(TABLE)).map((/** @type {any} */ row) => row.id), ['21', '22']);
    await browser.picture(house.pictureOf(browser.name, 'admissions'));
    assert.deepEqual(linesOf(await saved(browser)), lines);
    return 'two of four rows of a file; the others are refused by their row and column';
}
