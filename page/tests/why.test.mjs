// The exact move, the mark of one that rounding would have hidden, and the sentences.
import assert from 'node:assert/strict';
import { test } from 'node:test';
import { sheetOfEvening } from '../evening-sheet.mjs';
import { makeFigures } from '../figures.mjs';
import { exactMove, hiddenByRounding, isAbove } from '../move.mjs';
import { bytesOf, linesOf, textOf } from '../programs.mjs';
import { dayAt } from '../security.mjs';
import { decidingOf, sentencesOf } from '../why.mjs';
import { makeEvening } from './evenings.mjs';
import { example, programs } from './release.mjs';

const figures = makeFigures('en');
const whyText = example('why.txt');
const sheet = sheetOfEvening(
    textOf(whyText),
    linesOf(await programs.run('evening', whyText)),
    linesOf(await programs.run('why', whyText)),
);
const security = (id) => sheet.securities.find((one) => one.id === id);
const said = (id, at) => sentencesOf(dayAt(security(id), at), figures);
const has = (id, at, words) => assert.ok(said(id, at).some((one) => words.test(one.text)), String(words));

test('the exact move is the greater of the two', () => {
    assert.deepEqual(exactMove(306000100, [300000000, 300000000]).from, 300000000);
    const down = exactMove(900000, [1000000, 1200000]);
    assert.equal(down.from, 1200000);
    assert.equal(figures.fraction(down), '250,000');
    assert.equal(exactMove(900000, [1000000, null]), null);
});

test('case 7: a third of a millionth over the volatility, which rounding first would have hidden', () => {
    const day = dayAt(security(7), 0);
    assert.equal(figures.fraction(day.move), '20,000 + 1/3');
    assert.ok(isAbove(day.move, 20000));
    assert.deepEqual(hiddenByRounding(day), { volatility: true, rate: false });
    assert.deepEqual(security(7).hidden, [0]);
    const sentences = said(7, 0);
    assert.equal(
        sentences[1].text,
        'The price moved by 2.0001 % (rounded up), from 30,000.00 to 30,600.01 roubles. That is above the volatility ' +
            'before, 2.0000 %, so the upward weight of 10.00 % was taken.',
    );
    assert.deepEqual(sentences.filter((one) => one.mark).map((one) => one.text), [
        'Exactly, the move is 20,000 + 1/3 millionths (20,000.333…), and the volatility before is 20,000 millionths. ' +
            'Rounded to the nearest millionth first it would have been 20,000, not above that: the move would have ' +
            'been hidden.',
    ]);
});

test('on a later day the mark looks at both evaluations before it, and at the volatility then', async () => {
    const admit = textOf(whyText).split('\n')[0];
    const day = (number, price) => `evaluate 7 ${number} 0 0 0 0 0 0 0 0 0 0 0 0 10000 0 ${price} 0 0 5`;
    const opened = async (...lines) => {
        const input = bytesOf(lines.map((line) => `${line}\n`).join(''));
        const [answers, whys] = [await programs.run('evening', input), await programs.run('why', input)].map(linesOf);
        return { answers, one: sheetOfEvening(textOf(input), answers, whys).securities[0] };
    };
    const first = [admit, day(4, 303000000)];
    const volatility = Number((await opened(...first)).answers[1].split(' ')[6]);
    // A third of a millionth over it, from the evaluation before the last one; the last one is nearer.
    const { one } = await opened(...first, day(5, 300000000 + 300 * volatility + 100));
    assert.deepEqual([one.hidden, [...one.happened].includes('hidden')], [[1], true]);
    assert.equal(dayAt(one, 1).move.from, 300000000);
    const { one: level } = await opened(...first, day(5, 300000000 + 300 * volatility));
    assert.deepEqual(level.hidden, []);
    const { one: seen } = await opened(...first, day(5, 300000000 + 300 * volatility + 200));
    assert.deepEqual(seen.hidden, []);
});

test('a hundredth of a rouble less is level, and nothing is hidden', () => {
    assert.equal(figures.fraction(dayAt(security(8), 0).move), '20,000');
    assert.deepEqual(security(8).hidden, []);
    has(8, 0, /moved by 2\.0000 %, .* not above the volatility before, 2\.0000 %, so the downward weight of 5\.00 %/);
});

test('half a millionth and more is not hidden; a rate that lets the replacement in can be', () => {
    const before = { s: 20000, s1: 200 };
    const up = { weight: 'up', replacement: 'no' };
    const move = (over) => ({ over, under: 2n });
    assert.deepEqual(hiddenByRounding({ move: move(40001n), before, reasons: up }), { volatility: false, rate: false });
    const third = { over: 60001n, under: 3n };
    const replaced = { weight: 'up', replacement: 'yes' };
    assert.deepEqual(hiddenByRounding({ move: third, before, reasons: replaced }), { volatility: true, rate: true });
    const zero = { weight: 'zero', replacement: 'no' };
    assert.deepEqual(hiddenByRounding({ move: third, before, reasons: zero }), { volatility: false, rate: false });
});

test('the tentative rate waits, and falls when the wait is over', () => {
    has(9, 3, /^The least step that covers 3\.00 times the volatility is 100 basis points, 1\.00 %\. The tentative /);
    has(9, 3, / rate waits at 7\.00 % before it falls towards it: it has stood for 4 of the 5 trading days of the /);
    has(9, 4, / 100 basis points, 1\.00 %: the tentative rate fell one step towards it, from 7\.00 % to 6\.00 %, /);
    has(9, 4, / since the wait of 5 trading days was over\.$/);
});

test('yesterday’s price, a share that is not modelled, a replacement, a maximum, days off', () => {
    assert.match(said(10, 0)[0].text, /^No row has a trade: the price is the last evaluation, 100\.00 roubles\.$/);
    assert.deepEqual(said(11, 0).length, 2);
    assert.match(said(11, 0)[1].text, /not modelled/);
    const replaced = said(12, 0).map((one) => one.text).join(' ');
    assert.match(replaced, /is now 6\.6667 %, the replacement: the move is above the last rate of level 1, 5\.00 %, /);
    assert.match(replaced, /the move over the multiplier of 3\.00 is 6\.6667 %, above 6\.6031 %, the root /);
    assert.match(replaced, /covers the move itself is 2,000 basis points, 20\.00 %: the tentative rate rose to it /);
    assert.match(replaced, /Rate 3 is held at the maximum, 40\.00 %/);
    const off = said(12, 1).map((one) => one.text).join(' ');
    assert.match(off, /^The least ask set the price: 119\.00 roubles/);
    assert.match(off, /2 days off lay before, so the move has no weight\. The volatility stays at 6\.6667 %\./);
});

test('the move may be from the evaluation before the last one, and there may be none', () => {
    assert.match(said(12, 1)[1].text, /^The price moved by 19\.0000 %, from 100\.00 roubles, the evaluation before /);
    assert.match(said(9, 0)[1].text, /^The price did not move from 100\.00 roubles\. That is not above the /);
});

// The figures are the answer's own: with others in their places the sentences say the others.
const OWN = { r: 123401, s0: 23402, x: 33403, y: 43404, s: 53405, t: 5406 };
const changed = (id, at, reasons, own = OWN) => {
    const day = dayAt(security(id), at);
    return { ...day, reasons: { ...day.reasons, ...reasons, figures: own } };
};
const inWords = (day) => sentencesOf(day, figures).map((one) => one.text).join(' ');

test('every figure of a sentence is the answer’s own, at its own place', () => {
    const replaced = inWords(changed(12, 0, {}));
    assert.match(replaced, /moved by 12\.3401 %, from .* above the volatility before, 2\.3402 %, so the upward/);
    assert.match(replaced, /is now 5\.3405 %, the replacement: .* of 3\.00 is 4\.3404 %, above 3\.3403 %, the root /);
    assert.match(replaced, /covers the move itself is 5,406 basis points, 54\.06 %: the tentative rate rose/);
    const not = inWords(changed(12, 0, { replacement: 'no' }));
    assert.match(not, /is now 5\.3405 %, the root .*\. The replacement, .* of 3\.00, is 4\.3404 % and not above it\. /);
    assert.match(not, /covers 3\.00 times the volatility is 5,406 basis points/);
    const none = inWords(changed(12, 0, { replacement: 'no' }, { ...OWN, y: 0 }));
    assert.match(none, /There is no replacement, since the move is not above the last rate of level 1, 5\.00 %\. /);
    assert.match(inWords(changed(7, 0, {})), /Exactly, the move is 20,000 \+ 1\/3 .* before is 23,402 millionths\. /);
    assert.match(inWords(changed(12, 1, {})), /The volatility stays at 5\.3405 %\. The least step .* 5,406 basis /);
});

test('the figures that decided stand in a table with their units', () => {
    assert.deepEqual(decidingOf(changed(12, 0, {}), figures), [
        ['Move', '12.3401 %', '123,401 millionths'],
        ['Volatility before', '2.3402 %', '23,402 millionths'],
        ['Root of the weighted mean', '3.3403 %', '33,403 millionths'],
        ['Replacement', '4.3404 %', '43,404 millionths'],
        ['Volatility now', '5.3405 %', '53,405 millionths'],
        ['Least step that covers it', '54.06 %', '5,406 basis points'],
    ]);
    assert.deepEqual(decidingOf(dayAt(security(7), 0), figures)[3], ['Replacement', 'none', '0']);
    assert.deepEqual(decidingOf(dayAt(security(11), 0), figures), []);
});

test('the exact move, rounded up, is the move that why says', async () => {
    const lines = makeEvening({ seed: 19, securities: 8, days: 30 });
    const input = bytesOf(lines.map((line) => `${line}\n`).join(''));
    const [answers, whys] = [await programs.run('evening', input), await programs.run('why', input)].map(linesOf);
    let count = 0;
    for (const one of [...sheet.securities, ...sheetOfEvening(textOf(input), answers, whys).securities]) {
        one.days.forEach((_, at) => {
            const { move, before, reasons } = dayAt(one, at);
            if (reasons.figures === undefined) return;
            assert.equal(Number((move.over + move.under - 1n) / move.under), reasons.figures.r);
            assert.equal(before.s, reasons.figures.s0);
            count += 1;
        });
    }
    assert.ok(count > 100);
});

test('one day is a day', () => {
    const day = dayAt(security(12), 1);
    const texts = (statics, days) => sentencesOf({ ...day, ...days, statics: { ...day.statics, ...statics } }, figures)
        .map((one) => one.text).join(' ');
    assert.match(texts({}, { b: 1 }), / 1 day off lay before/);
    assert.match(texts({ rh1: 1 }, { m: 1 }), /requirement of 1 day, with 1 day off ahead\./);
    const waited = { ...day.reasons, tentative: 'waited' };
    assert.match(texts({ wait: 1 }, { reasons: waited }), /of the 1 trading day of the wait/);
    assert.doesNotMatch(texts({ rh1: 1, wait: 1 }, { b: 1, m: 1, reasons: waited }), /\b1 (trading )?days/);
});

test('every day of the example has its sentences, with no figure missing', () => {
    for (const one of sheet.securities) {
        one.days.forEach((_, at) => {
            for (const { text } of said(one.id, at)) assert.doesNotMatch(text, /undefined|NaN|–|null/, text);
        });
    }
});
