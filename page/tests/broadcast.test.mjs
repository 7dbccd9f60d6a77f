// A broadcast as `listen` prints it: its reasons in sentences, its session, and whether it is whole. The lines are the
// example's, so these tests need no program.
import assert from 'node:assert/strict';
import fs from 'node:fs';
import path from 'node:path';
import { test } from 'node:test';
import { fileURLToPath } from 'node:url';
import { heardOf } from '../answers.mjs';
import { makeFigures } from '../figures.mjs';
import { sheetOfMessages } from '../message-sheet.mjs';
import { refusedOf } from '../refusals.mjs';
import { dayAt } from '../security.mjs';
import { wholeSentence } from '../whole.mjs';
import { sentencesOf } from '../why.mjs';

const top = path.resolve(path.dirname(fileURLToPath(import.meta.url)), '../..');
const example = fs.readFileSync(path.join(top, 'examples/messages.lines.txt'), 'utf8').split('\n').slice(0, -1);
const figures = makeFigures('en');
const sheet = sheetOfMessages(example);
const security = (id, of = sheet) => of.securities.find((one) => one.id === id);
const texts = (one, at) => sentencesOf(dayAt(one, at), figures).map(({ text }) => text);
const isInner = (line) => !/^(begin|end) /.test(line);

test('the numbers of reasons are the words of why', () => {
    const reasons = (numbers) => heardOf(`reasons 7 4 ${numbers}`);
    assert.deepEqual(reasons('1 2 2 1 1 2 3'), {
        kind: 'reasons', id: 7, day: 4, price: 'close', weight: 'up', replacement: 'no', tentative: 'rose',
        level1: 'requirement', level2: 'minimum', level3: 'maximum',
    });
    assert.equal(reasons('4 3 1 4 1 1 1').price, 'yesterday');
    const { weight, replacement, tentative } = reasons('2 0 0 0 2 2 2');
    assert.deepEqual([weight, replacement, tentative], ['none', 'none', 'none']);
    assert.deepEqual(heardOf('end 64 4294967295'), { kind: 'end', count: 64, sum: 4294967295 });
    assert.deepEqual(heardOf('session 16 4'), { kind: 'session', id: 16, day: 4 });
    assert.deepEqual(heardOf('unended 3'), { kind: 'unended', count: 3 });
});

test('the reasons of a broadcast stand in sentences', () => {
    assert.deepEqual(texts(security(7), 0), [
        'The close set the price: 103.00 roubles, the mean of the rows that have trades, by their volumes.',
        'The move is above the volatility before, so the upward weight of 10.00 % was taken.',
        'The volatility is now 2.1214 %, the root of the weighted mean of the squares of the move and the volatility ' +
            'before. No replacement won.',
        'The tentative rate rose at once, to 7.00 %.',
        'Rate 1 is 8.00 %, the least step of 1.00 % that covers the requirement of 2 days.',
        'Rate 2 is 12.00 %, the least step of 1.00 % that covers the requirement of 5 days.',
        'Rate 3 is 15.00 %, the least step of 1.00 % that covers the requirement of 8 days.',
    ]);
    // The move is the greater of two, so the first day with an exact one is the third.
    const [, move, weight] = texts(security(7), 2);
    assert.match(move, /^The exact move, from [0-9.]+ .* roubles, is .*, above the volatility before/);
    assert.equal(weight, 'So the upward weight of 10.00 % was taken.');
    assert.ok(texts(security(11), 0).some((text) => /the replacement: the move is above/.test(text)));
    assert.ok(texts(security(11), 0).some((text) => /is held at the maximum/.test(text)));
    assert.ok(security(11).happened.has('replaced') && security(11).happened.has('maximum'));
});

test('a share that is not modelled, and a broadcast without statics', () => {
    const rates = 'rates 7 4 1030000 20000 600 0 500 700 900 1 2 3 1 2 3';
    const unmodelled = sheetOfMessages(['begin 1', rates, 'reasons 7 4 4 0 0 0 2 2 2', 'end 3 1']);
    assert.deepEqual(texts(security(7, unmodelled), 0), [
        'No row has a trade: the price is the last evaluation, 103.00 roubles.',
        'The share is not modelled (isEWMA no): its rates are the minima, its volatility and tentative rate stay.',
    ]);
    const bare = sheetOfMessages(['begin 1', rates, 'reasons 7 4 1 1 2 3 1 2 3', 'end 3 1']);
    assert.deepEqual(texts(security(7, bare), 0).slice(1), [
        'More than one day off lay before, so the move has no weight.',
        'The volatility stays at 2.0000 %.',
        'The tentative rate waits at 6.00 % before it falls.',
        'Rate 1 is 5.00 %, the least step that covers the requirement.',
        'Rate 2 is its minimum, 7.00 %.',
        'Rate 3 is held at the maximum, 9.00 %: the requirement is above it.',
    ]);
    // Reasons of another day, or of a security without rates, are of no day that is shown.
    const [later, stranger] = ['reasons 7 5 1 1 2 3 1 2 3', 'reasons 8 4 1 1 2 3 1 2 3'];
    const other = sheetOfMessages(['begin 1', rates, later, stranger, 'end 4 1']);
    assert.equal(dayAt(security(7, other), 0).reasons, null);
});

test('an opening is told, and an evaluation goes back to the main session', () => {
    const upTo = (words) => sheetOfMessages(example.slice(0, example.indexOf(words) + 1));
    assert.equal(security(16, upTo('session 16 4')).record.session, 1);
    assert.equal(security(16).record.session, 0);
    assert.equal(security(12).record.session, 1);
    assert.equal(security(7).record.session, 0);
    const old = sheetOfMessages(example.filter(isInner).filter((line) => !/^(reasons|session) /.test(line)));
    assert.equal(security(16, old).record.session, undefined);
});

test('whether a broadcast is whole', () => {
    const said = (lines) => wholeSentence(sheetOfMessages(lines), figures);
    assert.deepEqual(sheet.whole, { is: true, begins: 1, ends: 1, day: 9 });
    assert.equal(sheet.lines, example.length);
    assert.equal(said(example), `The broadcast is whole: ${example.length} messages from its begin to its end, and ` +
        'the sum of their bytes is right. Its last day is 9: see that this is tonight’s, since yesterday’s ' +
        'broadcast is whole too.');
    assert.match(said(example.filter(isInner)), /^This broadcast has neither begin nor end/);
    assert.match(said([...example.slice(0, -1), 'unended 63']), /^The broadcast is not whole: it began and has no end/);
    assert.match(said([...example.slice(0, -1), 'refused 25 100']), /^The broadcast is not whole\. Get/);
    assert.match(said([...example, ...example]), /^The broadcast is not whole: 2 broadcasts stand/);
    assert.match(said(['session 7 4', ...example]), /^The broadcast is not whole: messages stand before/);
    assert.match(said(['begin 1', 'unended 1', ...example]), /^The broadcast is not whole: it began/);
    assert.match(said(['begin 1', 'end 1 2154929225']), /None of its messages has a day\.$/);
    const unended = sheetOfMessages(['begin 1', 'session 7 4', 'unended 2']);
    assert.deepEqual([unended.whole.is, unended.lines, unended.damage], [false, 2, null]);
});

test('an end that is refused is said in words, with its message', () => {
    const { damage, lines } = sheetOfMessages(['begin 1', 'session 7 4', 'refused 25 24']);
    assert.deepEqual([damage.number, damage.offset, damage.message, lines], [25, 24, 3, 2]);
    assert.match(damage.words, /^the end of the broadcast does not fit the messages before it/);
    assert.equal(refusedOf('refused 25 24').offset, 24);
});
