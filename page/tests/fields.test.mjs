// Typed values become whole numbers exactly, and back; what is out of a field's range is refused in words.
import assert from 'node:assert/strict';
import fs from 'node:fs';
import { test } from 'node:test';
import { calls, callOf, rangeOf, staticNames, wordOf } from '../fields.mjs';
import { bitsOf, floatOf } from '../kinds.mjs';

const everyField = calls.flatMap(({ word, fields, rows }) => (
    [...fields, ...rows?.fields ?? []].map((field) => ({ word, field }))));
const fieldOf = (word, name) => callOf(word).fields.find((field) => field.name === name);
const typed = (word, name, text) => wordOf(fieldOf(word, name), text);

/** The calls and the names of their numbers, as docs/EVENING.md lists them. */
function listed() {
    const page = fs.readFileSync(new URL('../../docs/EVENING.md', import.meta.url), 'utf8');
    const block = page.slice(page.indexOf('## The calls'), page.indexOf('A number below zero'));
    const lines = block.split('\n').filter((line) => line.startsWith('    ') && !line.includes('in place of'));
    return lines.join(' ').trim().split(/ +(?=[a-z])/).map((form) => {
        const [head, rows] = form.trim().split(/ *[[\]][. ]*/);
        const [word, ...names] = head.split(/ +/);
        return { word, names, rows: rows?.split(/ +/) };
    });
}

test('the calls have the numbers that docs/EVENING.md lists, in its order', () => {
    const names = (fields) => fields?.filter(({ instead }) => instead === undefined).map(({ name }) => name);
    const ours = calls.map(({ word, fields, rows }) => ({ word, names: names(fields), rows: names(rows?.fields) }));
    const byWord = (one, other) => one.word < other.word ? -1 : 1;
    assert.deepEqual(ours.sort(byWord), listed().sort(byWord));
    assert.equal(ours.length, 11);
    assert.deepEqual([staticNames.length, staticNames[0], staticNames.at(-1)], [26, 'LOT', 'USEEXTERNAL']);
});

test('every field has a label, a meaning and a range in words', () => {
    for (const { field } of everyField) {
        assert.match(field.meaning, /^[A-Z].*[^.]\.$/, field.name);
        assert.ok(field.label !== '' && rangeOf(field) !== '');
    }
});

test('the ends of each range are taken, and one past each is refused in words', () => {
    for (const { word: call, field } of everyField) {
        const of = (number) => field.instead === undefined ? String(number) : `${number}/${number}`;
        const at = (number) => wordOf(field, field.kind.typed(of(number)));
        const named = `${call} ${field.name}`;
        for (const end of [field.least, field.most]) assert.deepEqual(at(end), { word: of(end) }, named);
        for (const past of [field.least - 1n, field.most + 1n]) {
            const { word, fault } = at(past);
            assert.equal(word, of(past), named);
            assert.equal(fault, `must be ${field.kind.names ? '' : 'from '}${rangeOf(field)}`, named);
        }
    }
    assert.equal(rangeOf(fieldOf('admit', 'P1')), '0.0001 to 1000000 roubles');
    assert.equal(rangeOf(fieldOf('admit', 'MONITORING')), 'no or yes');
    assert.equal(rangeOf(fieldOf('quote', 'SECOND')), '00:00:00 to 23:59:59');
});

test('a price in roubles is exact', () => {
    const units = [1n, 9n, 10n, 1032500n, 9999999999n, 10000000000n, 7n ** 11n, 123456789n];
    for (const unit of units) {
        const text = `${unit / 10000n}.${String(unit % 10000n).padStart(4, '0')}`;
        assert.deepEqual(typed('admit', 'P1', text), { word: String(unit) });
        assert.deepEqual(typed('admit', 'P1', fieldOf('admit', 'P1').kind.typed(String(unit))), { word: String(unit) });
    }
    assert.deepEqual(typed('admit', 'P1', ' 103.2500000 '), { word: '1032500' });
    assert.deepEqual(typed('admit', 'P1', '0103'), { word: '1030000' });
    assert.equal(typed('admit', 'P1', '0.00005').fault, 'must have at most 4 decimals');
    for (const text of ['1,000', '1e3', '1.', '.5', '+1', '1 000', 'NaN', '0x10']) {
        assert.deepEqual(typed('admit', 'P1', text), { fault: 'must be digits, with at most one point' }, text);
    }
});

test('other units', () => {
    assert.deepEqual(typed('admit', 'H', '1'), { word: '100' });
    assert.deepEqual(typed('admit', 'S', '2.0001'), { word: '20001' });
    assert.deepEqual(typed('admit', 'Q', '3'), { word: '300' });
    assert.deepEqual(typed('admit', 'A_UP', '0.1'), { word: '1000' });
    assert.deepEqual(typed('evaluate', 'RRCL0', '-0.05'), { word: '-5' });
    assert.deepEqual(typed('evaluate', 'RRCL0', '-0'), { word: '0' });
    assert.equal(fieldOf('evaluate', 'RRCL0').kind.typed('-5'), '-0.05');
    assert.deepEqual(typed('admit', 'LOT', '1.5'), { fault: 'must be a whole number, in digits alone' });
    assert.deepEqual(typed('admit', 'ISEWMA', 'Yes'), { word: '1' });
    assert.deepEqual(typed('admit', 'ISEWMA', 'maybe'), { fault: 'must be no or yes' });
    assert.deepEqual(typed('quote', 'SECOND', '19:00'), { word: '68400' });
    assert.deepEqual(typed('quote', 'SECOND', '68400'), { word: '68400' });
    assert.match(typed('quote', 'SECOND', '24:00:00').fault, /^must be a time/);
    assert.deepEqual(typed('quote', 'BID', ''), { word: '0' });
    assert.deepEqual(typed('admit', 'P1', ''), { fault: 'is missing' });
    assert.deepEqual(typed('read', 'ID', '9007199254740993').word, '9007199254740993');
    assert.deepEqual(typed('read', 'ID', '9'.repeat(19)), { fault: 'has too many digits' });
});

test('an outside price is a float by its bits', () => {
    assert.deepEqual(typed('outside', 'BIDBITS', '103.25'), { word: '4636965989773213696' });
    assert.equal(fieldOf('outside', 'BIDBITS').kind.typed('4636965989773213696'), '103.25');
    const { kind } = fieldOf('outside', 'BIDBITS');
    const floats = [0.1, 100.03125, 1 / 3, 5e-324, -0, -1, 1e300, Infinity, NaN, 0.00005, 1000000.00005];
    for (const bits of [...floats.map(bitsOf), -1n, -(2n ** 63n), 2n ** 63n - 1n]) {
        assert.deepEqual(kind.read(kind.typed(String(bits))), { word: String(bits) });
    }
    assert.equal(floatOf(bitsOf(0.1)), 0.1);
    assert.match(typed('outside', 'BIDBITS', '0').fault, /^must be from 0.00005 to /);
    assert.match(typed('outside', 'BIDBITS', '-1').fault, /^must be from 0.00005 to /);
});
