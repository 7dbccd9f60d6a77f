// The list of fields against the program: a form has a fault exactly where `evening` refuses a number for its range or
// order. Numbers of a good line are changed at random, crowded at the ends of the ranges.
import assert from 'node:assert/strict';
import { test } from 'node:test';
import { wordOf } from '../fields.mjs';
import { heardOf } from '../heard.mjs';
import { formOf, lineOf } from '../lines.mjs';
import { answersTo } from './ask.mjs';
import { chance } from './evenings.mjs';

const Z = '10 100 300 1000 500 5 2 5 8 50 500 700 900 4000 200 25 2000 2000 1000 60 1 1 120 1 2 0';
const before = [`admit 7 3 1000000 1000000 20000 600 ${Z}`, 'evaluate 7 4 0 0 0 0 0 0 0 0 0 0 0'];
const good = {
    admit: `admit 8 3 1000000 1000000 20000 600 ${Z}`,
    evaluate: 'evaluate 7 5 0 0 1 -730 1460 2 0 0 7 0 0'
        + ' 0 10000 0 1000000 1000000 1000000 5 1 125000 1825 81000 80000 82000 8',
    quote: 'quote 7 36000 0 1062960 0',
    move: 'move 7 0',
    outside: 'outside 7 4636702106982547456 4636965989773213696',
    notice: 'notice 7 0 4636948397587169280',
    interest: 'interest 0 0 1 1000 500 200 50 2 20 300 100 200 940 710'
        + ' 1 800 650 700 810 40 150 1 3 803 652 700 1150 40 150 1',
    bond: 'bond 0 9850 10000000 123400 700 30000 800 2 1 0 0 2 0 1460 7 -730 1460'
        + ' 100 300 5 2 5 8 50 500 700 900 4000 200 2500 2500 1 1 2 350000 8 10000',
};
const JUDGED_BY_FORM = { admit: ['4'], evaluate: ['6', '16'], interest: ['6', '14'], bond: ['6', '17'] };
const judgedByForm = (word) => JUDGED_BY_FORM[word] ?? ['6', '20'];

/** A number of a field at an end of its range, one past it, near what it was, or anywhere. */
function another(field, was, next) {
    const { least, most } = field;
    const anywhere = least + ((most - least) * BigInt(next(1000))) / 1000n;
    const ends = [least - 1n, least, least + 1n, most - 1n, most, most + 1n];
    const numbers = [...ends, was - 1n, was + 1n, was / 2n, anywhere, 0n];
    return field.kind.typed(String(numbers[next(numbers.length)]));
}

/** Lines that have a number or some of them changed. The id stays, and so do pairs, which the table decides on. */
function changed(line, count, seed) {
    const next = chance(seed);
    const { call, form } = formOf(line);
    const groups = [[call.fields, form.values], ...form.rows.map((row) => [call.rows.fields, row])];
    const places = groups.flatMap(([fields, values]) => fields
        .filter((field) => field.instead === undefined && (field.name !== 'ID' || call.word === 'admit'))
        .map((field) => ({ field, values })));
    return Array.from({ length: count }, (_, at) => {
        const kept = places.map(({ field, values }) => values[field.name]);
        for (let more = next(3); more >= 0; more -= 1) {
            const { field, values } = places[more === 0 ? at % places.length : next(places.length)];
            const { word } = wordOf(field, values[field.name]);
            values[field.name] = another(field, BigInt(word), next);
        }
        const made = lineOf(call, form);
        places.forEach(({ field, values }, place) => { values[field.name] = kept[place]; });
        return made;
    });
}

for (const [word, line] of Object.entries(good)) {
    test(`a form of ${word} has a fault exactly where the program says so`, () => {
        assert.deepEqual(lineOf(formOf(line).call, formOf(line).form), { line, faults: [] });
        const lines = changed(line, 900, 7);
        const evening = [...before, ...lines.map((made) => made.line)];
        const [answers, whys] = ['evening', 'why'].map((name) => answersTo(name, evening).slice(before.length));
        const seen = { taken: 0, refused: 0 };
        lines.forEach((made, at) => {
            const refused = judgedByForm(word).includes(answers[at].split(' ')[0]);
            seen[refused ? 'refused' : 'taken'] += 1;
            const seenBoth = `${made.line}: ${answers[at]}, ${JSON.stringify(made.faults)}`;
            assert.equal(made.faults.length > 0, refused, seenBoth);
            // A refusal names a field at fault, in the row or the term that `why` names.
            const { faults = [] } = heardOf(made.line, { answer: answers[at], why: whys[at] });
            if (refused) assert.ok(faults.length > 0 && faults.every(({ text }) => text !== undefined), seenBoth);
            const [, row] = / row (\d+)/.exec(whys[at]) ?? [];
            if (row !== undefined) assert.ok(faults.every((fault) => fault.row === Number(row)), whys[at]);
        });
        assert.ok(seen.taken > 200 && seen.refused > 200, JSON.stringify(seen));
    });
}
