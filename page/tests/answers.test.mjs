// A program's line becomes named figures, each by its place in docs/EVENING.md and docs/BROADCAST.md.
import assert from 'node:assert/strict';
import { test } from 'node:test';
import { answerOf, admissionOf, dayOf, heardOf, reasonsOf, wordsOf } from '../answers.mjs';

const RECORD =
    '0 7 1 4 1030000 1000000 21214 700 0 800 1200 1500 1112400 1153600 1184500 947600 906400 875500 ' +
    '0 -1 2 988800 1071200 -1 -1 1 10 20 988801 1071201 5 6 2 30 40 988802 1071202 -1 7 3 4 68520 1 2 995000 1032500';

test('a record has its figures by name', () => {
    const record = answerOf('evaluate', RECORD);
    assert.equal(record.kind, 'record');
    assert.deepEqual([record.id, record.live, record.day, record.p1, record.p2], [7, 1, 4, 1030000, 1000000]);
    assert.deepEqual([record.s, record.tentative, record.age], [21214, 700, 0]);
    assert.deepEqual([record.s1, record.s2, record.s3], [800, 1200, 1500]);
    assert.deepEqual([record.upper1, record.upper2, record.upper3], [1112400, 1153600, 1184500]);
    assert.deepEqual([record.lower1, record.lower2, record.lower3], [947600, 906400, 875500]);
    assert.deepEqual([record.k_0, record.rrcl_0, record.rrch_0], [0, -1, 2]);
    assert.deepEqual([record.lower_0, record.upper_0], [988800, 1071200]);
    assert.deepEqual([record.nearTop_1, record.nearBottom_1, record.nearTop_2, record.nearBottom_2], [5, 6, -1, 7]);
    assert.deepEqual([record.k_2, record.lower_2, record.upper_2], [2, 988802, 1071202]);
    assert.deepEqual([record.movesUpper, record.movesLower, record.lastSecond], [3, 4, 68520]);
    assert.deepEqual([record.session, record.eveningMoves, record.extBid, record.extAsk], [1, 2, 995000, 1032500]);
});

test('a record of another length is no record', () => {
    assert.throws(() => answerOf('read', `${RECORD} 1`));
    assert.throws(() => answerOf('read', '0 7'));
});

test('the other answers', () => {
    assert.deepEqual(answerOf('admit', '0'), { kind: 'admitted' });
    assert.deepEqual(answerOf('quote', '0 1 0'), { kind: 'quote', top: 1, bottom: 0 });
    assert.deepEqual(answerOf('evaluate', '16'), { kind: 'refused', number: 16 });
    assert.deepEqual(answerOf('hello', 'bad 26'), { kind: 'bad', line: 26 });
    const interest = answerOf('interest', '0 -1625 25 150 61 150 2 300 200 151 76 200 0 300 450');
    assert.deepEqual([interest.lower, interest.upper, interest.maturities.length], [-1625, 25, 2]);
    const maturity = { change: 151, volatility: 76, tentative: 200, age: 0, up: 300, down: 450 };
    assert.deepEqual(interest.maturities[1], maturity);
    const bond = answerOf('bond', '0 9973400 900 0 1000 1600 1900 9354 10351 9355 10352 1 2 3 4 5 6 7 8');
    assert.deepEqual([bond.p, bond.s3, bond.terms.length], [9973400, 1900, 3]);
    assert.deepEqual(bond.terms[0], { lower: 9354, upper: 10351, offLower: 9355, offUpper: 10352 });
});

test('the numbers of a call, between the blanks that the programs take for blanks', () => {
    assert.deepEqual(wordsOf('\tread  7 \r'), ['read', '7']);
    assert.deepEqual(wordsOf('read\u00a07'), ['read\u00a07']);
    assert.deepEqual(dayOf('evaluate 7 5 2 1 0 0/1 0 0 0 0 0 0'), { id: 7, day: 5, b: 2, m: 1 });
    const numbers = Array.from({ length: 32 }, (_, at) => 100 + at);
    const admission = admissionOf(`admit ${numbers.join(' ')}`);
    assert.deepEqual([admission.id, admission.p2, admission.lot, admission.smax], [100, 103, 106, 119]);
    assert.deepEqual([admission.isewma, admission.useexternal], [127, 131]);
});

test('why: reasons, and the place at fault', () => {
    assert.deepEqual(
        reasonsOf('0 price close weight up replacement no tentative rose ' +
            'level1 requirement level2 minimum level3 maximum'),
        {
            kind: 'reasons', price: 'close', weight: 'up', replacement: 'no', tentative: 'rose',
            level1: 'requirement', level2: 'minimum', level3: 'maximum',
        },
    );
    const modelled = reasonsOf('0 price bid level3 minimum figures 200000 20000 66031 66667 66668 2000');
    assert.deepEqual(modelled, {
        kind: 'reasons', price: 'bid', level3: 'minimum',
        figures: { r: 200000, s0: 20000, x: 66031, y: 66667, s: 66668, t: 2000 },
    });
    assert.deepEqual(reasonsOf('6 row 3'), { kind: 'fault', number: 6, at: 'row', which: 3 });
    assert.deepEqual(reasonsOf('4 field 32'), { kind: 'fault', number: 4, at: 'field', which: 32 });
    assert.deepEqual(reasonsOf('8 none'), { kind: 'fault', number: 8, at: 'none' });
    assert.deepEqual(reasonsOf('bad 2'), { kind: 'bad', line: 2 });
});

test('listen: each kind of line', () => {
    const move = heardOf('move 7 0 1 1133000 1174200 1205100 1091800 1091801 1091802');
    assert.deepEqual([move.id, move.side, move.count, move.range3, move.band2], [7, 0, 1, 1205100, 1091802]);
    const rates = heardOf('rates 7 4 1030000 21214 700 0 800 1200 1500 1112400 1153600 1184500 947600 906400 875500');
    assert.deepEqual([rates.p, rates.s, rates.s3, rates.upper1, rates.lower3], [1030000, 21214, 1500, 1112400, 875500]);
    const bands = heardOf('bands 7 5 2 -730 1460 962620 1044080 1 0 0 3 4 0 0 0 5 6');
    assert.deepEqual([bands.rrcl_0, bands.upper_0, bands.k_1, bands.lower_2, bands.upper_2], [-730, 1044080, 1, 5, 6]);
    assert.deepEqual(heardOf('unknown 9 12'), { kind: 'unknown', which: 9, length: 12 });
    assert.deepEqual(heardOf('refused 21 400'), { kind: 'refused', number: 21, offset: 400 });
});
