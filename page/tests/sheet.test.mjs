// Every figure of the sheet stands in a program's answer. The places of the figures are written here once more, from
// docs/EVENING.md, and not taken from the page's own list.
import assert from 'node:assert/strict';
import { test } from 'node:test';
import { COLUMNS, chosen } from '../columns.mjs';
import { DOWNLOADS } from '../downloads.mjs';
import { answeredLines, sheetOfEvening } from '../evening-sheet.mjs';
import { makeFigures } from '../figures.mjs';
import { sheetOfMessages } from '../message-sheet.mjs';
import { linesOf, textOf } from '../programs.mjs';
import { dayAt } from '../security.mjs';
import { makeEvening } from './evenings.mjs';
import { example, programs } from './release.mjs';

// Words of an answer: 0 the verdict, 1 ID, 2 LIVE, 3 DAY, 4 P1, 5 P2, 6 S, 7 TENTATIVE, 8 AGE, 9 S1 .., 12 UPPER1 ..,
// 15 LOWER1 .., then seven to a term from 18, then 39 MOVESUPPER, 40 MOVESLOWER, 41 LASTSECOND, 42 SESSION.
const PLACE = {
    id: 1, day: 3, p1: 4, s: 6, tentative: 7, s1: 9, s2: 10, s3: 11,
    upper1: 12, upper2: 13, upper3: 14, lower1: 15, lower2: 16, lower3: 17,
    k_0: 18, lower_0: 21, upper_0: 22, k_1: 25, lower_1: 28, upper_1: 29, k_2: 32, lower_2: 35, upper_2: 36,
    movesUpper: 39, movesLower: 40, session: 42,
};
// What the page itself makes of figures: no answer has them.
const MADE = new Set(['change', 'happened']);
const IN_A_MESSAGE = Object.keys(PLACE);
const bytes = (text) => new TextEncoder().encode(text);

async function opened(input) {
    const answers = linesOf(await programs.run('evening', input));
    return { answers, sheet: sheetOfEvening(textOf(input), answers, linesOf(await programs.run('why', input))) };
}

/** The last record answered of each security, by its words. */
function lastRecords(answers) {
    const last = new Map();
    const isRecord = (words) => words[0] === '0' && words.length === 46;
    for (const words of answers.map((line) => line.split(' ')).filter(isRecord)) last.set(Number(words[1]), words);
    return last;
}

const random = bytes(makeEvening({ seed: 7, securities: 8, days: 18 }).map((line) => `${line}\n`).join(''));

for (const [name, input] of [['the example evening', example('evening.txt')], ['a random evening', random]]) {
    const { answers, sheet } = await opened(input);
    const last = lastRecords(answers);

    test(`${name}: every figure of the table is the one of the last answer`, () => {
        let looked = 0;
        for (const security of sheet.securities) {
            const words = last.get(security.id);
            for (const column of COLUMNS.filter((one) => !MADE.has(one.key))) {
                const figure = column.of(security);
                if (words === undefined || words[2] === '0') {
                    assert.equal(figure, column.key === 'id' ? security.id : null);
                } else {
                    assert.equal(String(figure), words[PLACE[column.key]], `${security.id} ${column.key}`);
                    looked += 1;
                }
            }
        }
        assert.ok(looked > 100);
        const answered = COLUMNS.map((one) => one.key).filter((key) => !MADE.has(key));
        assert.deepEqual(answered.sort(), Object.keys(PLACE).sort());
    });

    test(`${name}: what is shown reads back to the figure`, () => {
        const figures = makeFigures('en');
        const digits = (shown) => shown.replace(/[^0-9−]/g, '').replace('−', '-').replace(/^(-?)0+(?=\d)/, '$1');
        for (const security of sheet.securities.filter((one) => last.get(one.id)?.[2] === '1')) {
            const words = last.get(security.id);
            assert.equal(digits(figures.roubles(security.record.p1, 4)), words[4]);
            assert.equal(digits(figures.volatility(security.record.s)), words[6]);
            for (const level of [1, 2, 3]) {
                assert.equal(digits(figures.perCent(security.record[`s${level}`])), words[8 + level]);
            }
        }
    });

    test(`${name}: every day is an evaluation’s answer, and begins where the one before ended`, () => {
        const evaluated = answers.filter((_, at) => answeredLines(textOf(input))[at].text.startsWith('evaluate'));
        const accepted = evaluated.filter((line) => line.startsWith('0'));
        assert.equal(sheet.securities.reduce((count, one) => count + one.days.length, 0), accepted.length);
        for (const security of sheet.securities) {
            security.days.forEach((_, at) => {
                const { record, before } = dayAt(security, at);
                assert.equal(record.p2, before.p1);
                assert.ok(accepted.includes(security.days[at].answer));
            });
        }
    });

    test(`${name}: a broadcast of it has the same figures`, async () => {
        const heard = linesOf(await programs.run('listen', await programs.run('broadcast', input)));
        const members = sheetOfMessages(heard);
        assert.equal(members.damage, null);
        assert.equal(members.whole.is, true);
        for (const security of members.securities.filter((one) => one.record !== null)) {
            const words = last.get(security.id);
            for (const key of IN_A_MESSAGE) {
                assert.equal(String(COLUMNS.find((one) => one.key === key).of(security)), words[PLACE[key]], key);
            }
        }
        const ids = (of) => of.securities.map((one) => one.id).sort();
        assert.deepEqual(ids(members), ids(sheet));
        // The reasons are those of `why`, on every day; the figures that decided are not in a message.
        const shown = ['rose', 'fell', 'waits', 'replaced', 'maximum', 'moved'];
        for (const one of members.securities.filter((security) => security.days.length > 0)) {
            const said = sheet.securities.find((security) => security.id === one.id);
            const has = (of) => shown.filter((key) => of.happened.has(key));
            assert.deepEqual(has(one), has(said));
            one.days.forEach((_, at) => {
                const { figures, ...reasons } = dayAt(said, at).reasons;
                assert.deepEqual(dayAt(one, at).reasons, reasons);
            });
        }
    });
}

const evening = await opened(example('evening.txt'));

test('what happened on the last day', async () => {
    const { sheet } = await opened(example('why.txt'));
    const happened = (id) => [...sheet.securities.find((one) => one.id === id).happened];
    assert.deepEqual(happened(7), ['rose', 'hidden']);
    assert.deepEqual(happened(8), []);
    assert.deepEqual(happened(9), ['fell']);
    assert.deepEqual(evening.sheet.securities.filter((one) => one.happened.has('moved')).map((one) => one.id), [16]);
    assert.ok(evening.sheet.securities.find((one) => one.id === 11).happened.has('replaced'));
    assert.ok(evening.sheet.securities.find((one) => one.id === 11).happened.has('maximum'));
});

test('refused lines, with their numbers, words and places', async () => {
    const { refusals } = evening.sheet;
    assert.deepEqual(refusals.find((one) => one.line === 26).words, 'the line is no call');
    assert.equal(refusals.find((one) => one.line === 68).number, 16);
    assert.equal(refusals.find((one) => one.line === 68).place, 'row 1');
    assert.equal(refusals.length, evening.answers.filter((line) => !line.startsWith('0')).length);
});

test('lines without an answer are passed over, and a long blank one is answered', async () => {
    const input = bytes(`\n \t\r\n${' '.repeat(70000)}\nread 1\n\nread\u00a02`);
    const { sheet } = await opened(input);
    assert.deepEqual(sheet.refusals.map((one) => [one.line, one.number]), [[3, null], [4, 1], [6, null]]);
});

test('a heading has no answer and is shown with its line; behind another word, or too long, it is none', async () => {
    const long = `#${' '.repeat(65535)}`;
    const input = bytes(`# the evening of 16 November\nread 1\n \t## shares \r\n#\nread 1 # one\n${long}\n`);
    const { answers, sheet } = await opened(input);
    assert.deepEqual(answers, ['1', 'bad 5', 'bad 6']);
    assert.deepEqual(sheet.headings, [
        { line: 1, text: 'the evening of 16 November' }, { line: 3, text: 'shares' }, { line: 4, text: '' },
    ]);
    assert.deepEqual(sheet.refusals.map((one) => [one.line, one.number]), [[2, 1], [5, null], [6, null]]);
});

test('a damaged broadcast: what was read before stays', async () => {
    const whole = await programs.run('broadcast', example('evening.txt'));
    // Begin, two statics, and the rates of security 7; its bands are cut.
    const bands = 10 + 102 + 102 + 98;
    const cut = sheetOfMessages(linesOf(await programs.run('listen', whole.subarray(0, bands + 50))));
    assert.equal(cut.damage.number, 21);
    assert.equal(cut.damage.offset, bands);
    assert.equal(cut.whole.is, false);
    assert.equal(cut.damage.words, 'the message is cut short');
    assert.deepEqual(cut.securities.map((one) => one.id), [7, 9]);
    assert.equal(cut.securities[0].record.p1, 1030000);
    assert.equal(cut.securities[0].record.lower_0, undefined);
    // A length, an id, and a price: the last is told by the end alone.
    for (const [number, at, value] of [[22, bands, 200], [23, 10 + 102 + 6, 0], [25, 10 + 102 + 102 + 14, 1]]) {
        const damaged = whole.slice();
        damaged[at] = value;
        assert.equal(sheetOfMessages(linesOf(await programs.run('listen', damaged))).damage.number, number);
    }
});

test('a message of an unknown kind is told, and the next is read', async () => {
    const whole = await programs.run('broadcast', example('evening.txt'));
    const more = new Uint8Array([3, 0, 0, 0, 9, 0, 1, ...whole]);
    const sheet = sheetOfMessages(linesOf(await programs.run('listen', more)));
    assert.deepEqual(sheet.unknown, [{ kind: 'unknown', which: 9, length: 3, message: 1 }]);
    assert.equal(sheet.damage, null);
    assert.ok(sheet.securities.length > 5);
});

test('sorted by any column, filtered by id and by what happened', () => {
    const { securities } = evening.sheet;
    const ids = (how) => chosen(securities, how).map((one) => one.id);
    assert.deepEqual(ids({}), [7, 9, 11, 12, 13, 14, 15, 16, 18, 19]);
    assert.deepEqual(ids({ id: '1', happened: 'moved' }), [16]);
    assert.equal(ids({ key: 'p1', descending: true })[0], 9);
    assert.deepEqual(ids({ key: 'p1' }).slice(-2), [14, 15]);
    assert.deepEqual(ids({ key: 'p1', descending: true }).slice(-2), [14, 15]);
    for (const { key } of COLUMNS) assert.equal(ids({ key }).length, securities.length);
});

test('the downloads have the figures of the last answers, in roubles and per cent', () => {
    const last = lastRecords(evening.answers);
    const live = evening.sheet.securities.filter((one) => last.get(one.id)?.[2] === '1');
    const lines = (name) => DOWNLOADS[name](evening.sheet.securities).split('\r\n').slice(1, -1);
    const rows = (name) => lines(name).map((line) => line.split(','));
    const units = (text) => text.replace('.', '').replace(/^0+(?=\d)/, '');
    assert.equal(rows('ASSETS').length, live.length);
    for (const [id, evaluation, volatility, tentative] of rows('ASSETS')) {
        const words = last.get(Number(id));
        assert.deepEqual([units(evaluation), volatility, units(tentative)], [words[4], words[6], words[7]]);
    }
    assert.equal(rows('RM_PRICERANGE').length, 3 * live.length);
    for (const [id, level, lower, upper] of rows('RM_PRICERANGE')) {
        const words = last.get(Number(id));
        assert.deepEqual([units(lower), units(upper)], [words[14 + Number(level)], words[11 + Number(level)]]);
    }
    for (const [id, level, rate] of rows('RM_INDICATIVE')) {
        assert.equal(units(rate), last.get(Number(id))[8 + Number(level)]);
    }
    for (const [id, term, lower, upper, days] of rows('PRICEMOVELIMIT')) {
        const words = last.get(Number(id));
        const at = 18 + 7 * Number(term);
        assert.deepEqual([days, units(lower), units(upper)], [words[at], words[at + 3], words[at + 4]]);
    }
    const head = 'security,evaluation (roubles),volatility (millionths),tentative rate (per cent)\r\n';
    assert.equal(DOWNLOADS.ASSETS([]), head);
});
