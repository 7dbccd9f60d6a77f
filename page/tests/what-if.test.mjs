// What if: a line in place of a security's last evaluation is answered as the whole evening answers it with that line
// replaced, for the security's own lines alone are told to the programs. Nothing is kept until it is adopted.
import assert from 'node:assert/strict';
import { test } from 'node:test';
import { COLUMNS } from '../columns.mjs';
import { makeDesk } from '../desk.mjs';
import { makeFigures } from '../figures.mjs';
import { formOf, lineOf } from '../lines.mjs';
import { bytesOf } from '../programs.mjs';
import { sentencesOf } from '../why.mjs';
import { answersTo, example } from './ask.mjs';
import { chance, makeEvening } from './evenings.mjs';
import { programs } from './release.mjs';

const asText = (lines) => lines.map((line) => `${line}\n`).join('');
const figures = makeFigures('en');

async function openDesk(lines) {
    const desk = makeDesk(programs);
    await desk.open(bytesOf(asText(lines)));
    return desk;
}

const replacedAt = (lines, at, line) => [...lines.slice(0, at), line, ...lines.slice(at + 1)];

/** The line of a security's last accepted evaluation, counted from 0. */
function lastOf(id, lines, answers) {
    const isIt = (line, at) => line.startsWith(`evaluate ${id} `) && answers[at].startsWith('0');
    return lines.map((_, at) => at).filter((at) => isIt(lines[at], at)).pop() ?? -1;
}

/** Lines that differ from an evaluation in one number each, and some that are refused or are no call. */
function others(line, next) {
    const { call, form } = formOf(line);
    const changed = (typed) => lineOf(call, { ...form, values: { ...form.values, ...typed } }).line;
    const withRow = (typed) => {
        const [first, ...rows] = form.rows;
        return lineOf(call, { ...form, rows: [{ ...first, ...typed }, ...rows] }).line;
    };
    const price = Number(form.rows[0]?.CLOSE ?? 100);
    const ofRows = form.rows.length === 0 ? [] : [
        withRow({ CLOSE: String(Math.max(0.01, price * (0.8 + next(40) / 100)).toFixed(2)) }),
        withRow({ CLOSE: String((price * 3).toFixed(2)) }),
        withRow({ T: '31' }),
        withRow({ BID: '5', ASK: '4' }),
        lineOf(call, { ...form, rows: [] }).line,
        lineOf(call, { ...form, rows: [...form.rows, form.rows[0]] }).line,
    ];
    return [
        line,
        changed({ B: String(next(31)) }),
        changed({ M: String(next(11)) }),
        changed({ DAY: String(2 + next(30)) }),
        changed({ K2: '30', PAIR2: '', RRCL2: '-5', RRCH2: String(next(90)) }),
        changed({ PAIR1: '0/1', RRCL1: '', RRCH1: '' }),
        changed({ PAIR1: '0/9', RRCL1: '', RRCH1: '' }),
        ...ofRows,
        `${line} x`,
        `${line.split(' ').slice(0, 5).join(' ')}`,
    ];
}

// Where the figures stand in an answer, from docs/EVENING.md and not from the page's own list.
const PLACE = {
    id: 1, day: 3, p1: 4, s: 6, tentative: 7, s1: 9, s2: 10, s3: 11,
    upper1: 12, upper2: 13, upper3: 14, lower1: 15, lower2: 16, lower3: 17,
    k_0: 18, lower_0: 21, upper_0: 22, k_1: 25, lower_1: 28, upper_1: 29, k_2: 32, lower_2: 35, upper_2: 36,
    movesUpper: 39, movesLower: 40, session: 42,
};
const ANSWERED = COLUMNS.filter(({ key }) => key !== 'change' && key !== 'happened');
const REASONS = ['price', 'weight', 'replacement', 'tentative', 'level1', 'level2', 'level3'];

/** Every figure and every reason of a day stands in the answers to its line. */
function assertInAnswers(day, answer, why) {
    const words = answer.split(' ');
    const { id } = day.record;
    for (const { key, of } of ANSWERED) assert.equal(String(of({ id, record: day.record })), words[PLACE[key]], key);
    const reasons = why.split(' ').slice(1);
    REASONS.forEach((name, at) => {
        assert.deepEqual([name, day.reasons[name]], [reasons[2 * at], reasons[2 * at + 1]]);
    });
    for (const { text } of sentencesOf(day, figures)) assert.doesNotMatch(text, /undefined|NaN|null/);
}

const evenings = {
    'the example evening': example('evening.txt'),
    'the example of why': example('why.txt'),
    'a random evening': makeEvening({ seed: 31, securities: 5, days: 14 }),
};

for (const [name, lines] of Object.entries(evenings)) {
    test(`${name}: each what-if is the whole evening’s answer with that line replaced`, async () => {
        const desk = await openDesk(lines);
        const [answers, whys] = ['evening', 'why'].map((program) => answersTo(program, lines));
        const next = chance(17);
        const seen = { accepted: 0, refused: 0, bad: 0 };
        for (const { id } of desk.sheet.securities) {
            const at = lastOf(id, lines, answers);
            if (at < 0) continue;
            for (const line of others(lines[at], next)) {
                const { before, after, days } = await desk.whatIf(id, line);
                assert.deepEqual([before.text, before.answer, before.why], [lines[at], answers[at], whys[at]]);
                const replaced = replacedAt(lines, at, line);
                const whole = ['evening', 'why'].map((program) => answersTo(program, replaced)[at]);
                assert.deepEqual([after.text, after.answer, after.why], [line, ...whole]);
                assertInAnswers(days.before, answers[at], whys[at]);
                if (after.accepted) assertInAnswers(days.after, ...whole);
                else assert.equal(days.after, null);
                seen[after.accepted ? 'accepted' : after.answer.startsWith('bad') ? 'bad' : 'refused'] += 1;
            }
        }
        assert.ok(seen.accepted > 10 && seen.refused > 10 && seen.bad > 4, JSON.stringify(seen));
        assert.deepEqual([desk.text(), desk.unsaved], [asText(lines), 0]);
    });

    test(`${name}: what is adopted is the text with that line, performed anew; undone, it is as before`, async () => {
        const desk = await openDesk(lines);
        const answers = answersTo('evening', lines);
        for (const { id } of desk.sheet.securities) {
            const at = lastOf(id, lines, answers);
            if (at < 0) continue;
            const line = lines[at].replace(/^(evaluate \d+ \d+) \d+ \d+/, '$1 2 7');
            const replaced = replacedAt(lines, at, line);
            const adopted = await desk.adopt(id, line);
            assert.equal(desk.text(), asText(replaced));
            assert.deepEqual(adopted.map((one) => one.text), replaced.slice(at));
            assert.deepEqual(adopted.map((one) => one.answer), answersTo('evening', replaced).slice(at));
            assert.equal(desk.lastEvaluation(id), line);
            const other = await openDesk(replaced);
            const records = (of) => of.sheet.securities.map((one) => [one.id, one.record, one.days.length]);
            assert.deepEqual(records(desk), records(other));
            assert.equal(desk.unsaved, 1);
            assert.equal(await desk.undo(), line);
            assert.deepEqual([desk.text(), desk.unsaved], [asText(lines), 0]);
            const [heard] = await desk.ask([`read ${id}`]);
            assert.equal(heard.answer, answersTo('evening', [...lines, `read ${id}`]).pop());
        }
    });
}

test('an interest line that was undone is in no what-if', async () => {
    const lines = example('evening.txt');
    const [admit, interest, other] = [lines[0], lines[28], lines[33]]; // two of the pair 0/1, with other repo bands
    const day = (number) => `evaluate 7 ${number} 0 0 1 0/1 0 0 0 0 0 0 0 10000 0 1030000 0 0 5`;
    const desk = await openDesk([admit, interest]);
    await desk.say([other]);
    const { answer } = (await desk.ask([day(4)]))[0];
    assert.equal(await desk.undo(), other);
    await desk.say([day(4), day(5)]);
    const { before, after } = await desk.whatIf(7, day(5));
    assert.equal(after.answer, before.answer);
    assert.notEqual(answer, answersTo('evening', [admit, interest, day(4)])[2]);
});

test('a what-if that is refused is not adopted, and says what is at fault', async () => {
    const lines = example('evening.txt');
    const desk = await openDesk(lines);
    const line = desk.lastEvaluation(7).replace(/^evaluate 7 9/, 'evaluate 7 8');
    const [heard, ...more] = await desk.adopt(7, line);
    assert.deepEqual([heard.accepted, heard.refused.number, heard.fields, more.length], [false, 5, ['DAY'], 0]);
    assert.deepEqual([desk.text(), desk.unsaved], [asText(lines), 0]);
});

test('a what-if is of a security that has an evaluation, and is one of it', async () => {
    const desk = await openDesk(example('evening.txt'));
    assert.equal(desk.lastEvaluation(14), null);
    assert.equal(desk.lastEvaluation(8), null);
    await assert.rejects(desk.whatIf(14, 'evaluate 14 4 0 0 0 0 0 0 0 0 0 0 0'), /security 14 has no evaluation/);
    await assert.rejects(desk.adopt(8, 'evaluate 8 4 0 0 0 0 0 0 0 0 0 0 0'), /security 8 has no evaluation/);
    for (const line of ['read 7', desk.lastEvaluation(9), 'evaluate', '']) {
        await assert.rejects(desk.whatIf(7, line), /no evaluation of security 7/);
    }
    const spelled = desk.lastEvaluation(7).replace(/^evaluate 7/, 'evaluate  007');
    assert.equal((await desk.whatIf(7, spelled)).after.accepted, true);
    assert.equal((await desk.ask(['read 7']))[0].accepted, true);
});
