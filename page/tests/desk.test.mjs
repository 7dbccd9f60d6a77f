// The desk: what is said line by line is answered as the whole text is, what is refused is not kept, what is asked
// changes nothing, and what is undone is as if it had not been. The answers are held against those of the release's own
// programs on the whole text, and the sheet against that of the text.
import assert from 'node:assert/strict';
import { test } from 'node:test';
import { makeDesk } from '../desk.mjs';
import { sheetOfEvening } from '../evening-sheet.mjs';
import { bytesOf, textOf } from '../programs.mjs';
import { answersTo, ask, example } from './ask.mjs';
import { chance, makeEvening } from './evenings.mjs';
import { example as bytesOfExample, programs } from './release.mjs';

const asText = (lines) => lines.map((line) => `${line}\n`).join('');
const answersOf = (program, text) => ask(program, text).split('\n').slice(0, -1);

async function openDesk(text = '') {
    const desk = makeDesk(programs);
    await desk.open(bytesOf(text));
    return desk;
}

/** All that a sheet shows, as plain data. */
const shown = ({ source, securities, refusals, unknown, damage, lines }) => structuredClone({
    source, refusals, unknown, damage, lines,
    securities: securities.map(({ id, statics, record, days, happened, hidden }) => (
        { id, statics, record, days: days.map(({ line, answer, why }) => ({ line, answer, why })), happened, hidden })),
});

/** What the sheet of a text has to show. */
const due = (text) => shown(sheetOfEvening(text, answersOf('evening', text), answersOf('why', text)));

const evenings = {
    'the example evening': example('evening.txt'),
    'the example of why': example('why.txt'),
    'a random evening': makeEvening({ seed: 3, securities: 6, days: 12 }),
};

for (const [name, lines] of Object.entries(evenings)) {
    test(`${name} is opened: its text, its sheet, and nothing unsaved`, async () => {
        const desk = await openDesk(asText(lines));
        assert.equal(desk.text(), asText(lines));
        assert.deepEqual(shown(desk.sheet), due(asText(lines)));
        assert.deepEqual([desk.unsaved, desk.canUndo], [0, true]);
    });

    test(`${name} is said a line at a time: answered as the text is, and refused lines are not kept`, async () => {
        const desk = await openDesk();
        const [answers, whys] = ['evening', 'why'].map((program) => answersTo(program, lines));
        const kept = [];
        for (const [at, line] of lines.entries()) {
            const [heard, ...more] = await desk.say([line]);
            assert.equal(more.length, 0);
            assert.equal(heard.text, line);
            assert.equal(heard.accepted, answers[at].startsWith('0'));
            const bad = `bad ${kept.length + 1}`;
            const told = answers[at].startsWith('bad') ? [bad, bad] : [answers[at], whys[at]];
            assert.deepEqual([heard.answer, heard.why], told);
            assert.equal(heard.refused === undefined, heard.accepted);
            if (heard.accepted) kept.push(line);
        }
        assert.ok(kept.length > 20);
        assert.equal(desk.text(), asText(kept));
        assert.deepEqual(shown(desk.sheet), due(asText(kept)));
        assert.equal(desk.unsaved, kept.length);
    });

    test(`${name} is said at once, in groups, and one at a time: the same is heard and kept`, async () => {
        const said = async (sizeOf) => {
            const desk = await openDesk();
            const heard = [];
            for (let at = 0, size = 0; at < lines.length; at += size) {
                size = sizeOf();
                heard.push(...await desk.say(lines.slice(at, at + size)));
            }
            return { heard, text: desk.text(), sheet: shown(desk.sheet) };
        };
        const next = chance(5);
        const single = await said(() => 1);
        assert.deepEqual(await said(() => 1 + next(30)), single);
        assert.deepEqual(await said(() => lines.length), single);
    });

    test(`${name}: what is asked is answered as if it were said, and changes nothing`, async () => {
        const half = Math.floor(lines.length / 2);
        const first = asText(lines.slice(0, half));
        const [desk, other] = [await openDesk(first), await openDesk(first)];
        const before = shown(desk.sheet);
        const asked = await desk.ask(lines.slice(half));
        assert.equal(desk.text(), first);
        assert.deepEqual(shown(desk.sheet), before);
        assert.equal(desk.unsaved, 0);
        assert.deepEqual(asked, await other.say(lines.slice(half)));
        assert.deepEqual(asked, await desk.say(lines.slice(half)));
        assert.deepEqual(shown(desk.sheet), due(desk.text())); // what was looked at before is looked at again
    });

    test(`${name} is undone line by line, to the empty text`, async () => {
        const desk = await openDesk(asText(lines));
        const answers = answersTo('evening', lines);
        const texts = [];
        for (let left = lines.length - 1; left >= 0; left -= 1) {
            texts.push(await desk.undo());
            assert.equal(desk.text(), asText(lines.slice(0, left)));
            if (left % 16 === 0) {
                assert.deepEqual(shown(desk.sheet), due(asText(lines.slice(0, left))));
                const [heard] = await desk.ask([lines[left]]); // the programs too know no more than the text
                assert.equal(heard.answer, answers[left]);
            }
        }
        assert.deepEqual(texts, [...lines].reverse());
        assert.ok(due(asText(lines)).securities.every(({ id }) => desk.lastEvaluation(id) === null));
        assert.deepEqual([desk.unsaved, desk.canUndo, await desk.undo()], [lines.length, false, null]);
        assert.equal(desk.unsaved, lines.length);
    });
}

test('lines are said and undone at random, and all is as the text says', async () => {
    const lines = makeEvening({ seed: 23, securities: 4, days: 40 });
    const desk = await openDesk(asText(lines.slice(0, 4)));
    const next = chance(9);
    const kept = lines.slice(0, 4);
    for (let step = 0, at = 4; step < 160; step += 1) {
        if (next(3) > 0) {
            const size = 1 + next(3);
            for (const heard of await desk.say(lines.slice(at, at + size))) if (heard.accepted) kept.push(heard.text);
            at += size;
        } else {
            for (let count = Math.min(next(5), kept.length); count > 0; count -= 1) {
                assert.equal(await desk.undo(), kept.pop());
            }
        }
        assert.equal(desk.text(), asText(kept));
    }
    assert.deepEqual(shown(desk.sheet), due(asText(kept)));
    for (const { id, days } of desk.sheet.securities) {
        const { after } = await desk.whatIf(id, desk.lastEvaluation(id).replace(/ 1 1200 1900 /, ' 1 0/1 '));
        const at = days[days.length - 1].line.number - 1;
        assert.equal(after.answer, answersTo('evening', [...kept.slice(0, at), after.text])[at]);
    }
    const reads = [1001, 1002, 1003, 1004].map((id) => `read ${id}`);
    const heard = await desk.ask(reads);
    assert.deepEqual(heard.map(({ answer }) => answer), answersTo('evening', [...kept, ...reads]).slice(kept.length));
});

test('a text keeps its bytes: blank lines, other bytes, and a last line without its end', async () => {
    const text = `\n \t\r\n${' '.repeat(70000)}\nread 1\r\n\x00\x80\x9f\xff\xef\xbb\xbf\n\nread\xa02`;
    const desk = await openDesk(text);
    assert.equal(desk.text(), `${text}\n`);
    assert.deepEqual(shown(desk.sheet), due(text));
    assert.deepEqual((await desk.say(['hello']))[0].answer, 'bad 8');
    assert.equal(await desk.undo(), 'read\xa02');
    assert.equal(await desk.undo(), '\x00\x80\x9f\xff\xef\xbb\xbf'); // and the blank line behind it
    assert.deepEqual((await desk.say(['hello']))[0].answer, 'bad 5');
});

test('a blank line says nothing, and one with a line feed is two', async () => {
    const desk = await openDesk();
    const admit = example('evening.txt')[0];
    assert.deepEqual(await desk.say(['', ' \t']), []);
    assert.deepEqual((await desk.say([`${admit}\nread 7\n`])).map(({ text }) => text), [admit, 'read 7']);
    assert.equal(desk.text(), `${admit}\nread 7\n`);
    assert.equal((await desk.say(['read –7']))[0].accepted, false);
});

test('a heading is kept in the text, counted, shown and taken back', async () => {
    const [admit] = example('evening.txt');
    const desk = await openDesk(`# 16 November\n${admit}\n`);
    assert.deepEqual(desk.sheet.headings, [{ line: 1, text: '16 November' }]);
    const [heading, read, bad] = await desk.say(['# shares', 'read 7', 'hello']);
    assert.deepEqual([heading.accepted, heading.answer, read.accepted, bad.answer], [true, '', true, 'bad 5']);
    assert.equal(desk.text(), `# 16 November\n${admit}\n# shares\nread 7\n`);
    assert.deepEqual(desk.sheet.headings.map(({ line }) => line), [1, 3]);
    assert.equal(desk.unsaved, 2);
    assert.equal(await desk.undo(), 'read 7');
    assert.equal(await desk.undo(), '# shares');
    assert.deepEqual(desk.sheet.headings.map(({ line }) => line), [1]);
    assert.equal(await desk.undo(), admit);
    assert.equal(await desk.undo(), '# 16 November');
    assert.equal(desk.canUndo, false);
    assert.equal(await desk.undo(), null);
});

test('what is asked while another is being done waits for it', async () => {
    const desk = await openDesk();
    const lines = evenings['a random evening'];
    const said = lines.map((line) => desk.say([line]));
    const asked = desk.ask(['read 1001']);
    const undone = desk.undo();
    const heard = (await Promise.all(said)).flat();
    const kept = heard.filter(({ accepted }) => accepted).map(({ text }) => text);
    assert.equal((await asked)[0].answer, answersTo('evening', [...kept, 'read 1001']).at(-1));
    assert.equal(await undone, kept.at(-1));
    assert.equal(desk.text(), asText(kept.slice(0, -1)));
});

test('lines are counted until they are saved', async () => {
    const [admit, , evaluate] = example('evening.txt');
    const desk = await openDesk(asText([admit]));
    const counts = [desk.unsaved];
    const then = async (work) => {
        await work();
        counts.push(desk.unsaved);
    };
    await then(() => desk.say([evaluate, 'read 7']));
    await then(() => desk.say(['read 8']));
    await then(() => desk.undo());
    await then(() => desk.adopt(7, evaluate.replace('1030000', '1020000')));
    await then(() => desk.undo());
    await then(() => desk.undo());
    await then(() => desk.undo());
    await then(() => desk.say([admit, evaluate]));
    await then(() => desk.saved());
    await then(() => desk.undo());
    await then(() => desk.open(bytesOf('')));
    assert.deepEqual(counts, [0, 2, 2, 1, 2, 1, 0, 1, 3, 0, 1, 0]);
});

test('a refused line names what is at fault: fields by their ranges, rows and terms by why', async () => {
    const [admit] = example('evening.txt');
    const desk = await openDesk(asText([admit]));
    const faults = async (line) => {
        const [{ refused, fields, faults: places }] = await desk.ask([line]);
        const { number, row, term, field } = refused;
        return { number, row, term, field, fields, rows: places.map((place) => place.row) };
    };
    const words = admit.split(' ');
    const put = (others) => Object.assign([...words], { 1: '8', ...others }).join(' ');
    const none = { row: undefined, term: undefined, field: undefined };
    const number = (at, ...fields) => ({ ...none, number: 4, field: at, fields, rows: fields.map(() => undefined) });
    assert.deepEqual(await faults(put({ 7: '101' })), number(7, 'LOT'));
    assert.deepEqual(await faults(put({ 3: '1000005' })), number(3, 'P1'));
    assert.deepEqual(await faults(put({ 9: '99', 31: '11' })), number(9, 'Q', 'EVENINGMAX'));
    assert.deepEqual(await faults(put({ 3: '1000005', 31: '11' })), number(31, 'EVENINGMAX', 'P1'));
    assert.deepEqual(await faults(admit), { ...none, number: 2, fields: ['ID'], rows: [undefined] });
    const day = 'evaluate 7 4 0 0 0 0 0 0 0 0 0 0 0';
    const good = ' 0 10000 0 1000000 0 0 5';
    assert.deepEqual(await faults('evaluate 7 4 31 11 0 0 0 0 0 0 0 0 0'),
        { ...none, number: 6, fields: ['B', 'M'], rows: [undefined, undefined] });
    assert.deepEqual(await faults(`${day}${good} 31 0 0 1000000 0 0 5`),
        { ...none, number: 6, row: 2, fields: ['T', 'RC'], rows: [2, 2] });
    assert.deepEqual(await faults('evaluate 7 4 0 0 0 0 0 0 1 0 0 0 0'),
        { ...none, number: 6, term: 1, fields: ['RRCH1'], rows: [undefined] });
    assert.deepEqual(await faults('evaluate 7 4 0 0 1 0/1 0 0 0 0 0 0'),
        { ...none, number: 6, term: 0, fields: ['PAIR0'], rows: [undefined] });
    const [{ faults: [fault] }] = await desk.ask([put({ 7: '101' })]);
    assert.deepEqual(fault, { name: 'LOT', text: 'must be from 1 to 100 pieces', range: undefined });
    const [bad] = await desk.ask(['evaluate 7 4']);
    assert.deepEqual([bad.refused.text, bad.refused.line, bad.fields], ['the line is no call', 2, []]);
    assert.equal(bad.refused.detail, "A number of 'evaluate' is missing, or a word is no number.");
});

test('the broadcast is that of the text', async () => {
    const desk = await openDesk(asText(example('evening.txt')));
    await desk.undo();
    await desk.say(['move 19 0']);
    assert.equal(textOf(await desk.broadcast()), ask('broadcast', desk.text()));
    assert.ok((await desk.broadcast()).length > 1000);
});

const DAY = '4 0 0 1 -730 1460 1 0/1 1 0 0'.split(' ');
const row = (id) => `${id};0;1;0;103;;;5\n`;

test('the exchange’s text becomes an evaluation of each of its securities, with its rows', async () => {
    const desk = await openDesk();
    const text = textOf(bytesOfExample('exchange.txt'));
    const { lines } = await desk.night(bytesOf(text), DAY, ['11', '9', '11']);
    const rowsOf = (id) => ask('exchange', text, id).trim().split(' ').slice(2).join(' ');
    const head = (id) => `evaluate ${id} ${DAY.join(' ')}`;
    assert.deepEqual(lines, [`${head(7)} ${rowsOf('7')}`, `${head(9)} ${rowsOf('9')}`, head(11)]);
    assert.deepEqual(await desk.night(bytesOf(''), DAY, []), { lines: [] });
    const zeros = await desk.night(bytesOf('7;0;1;0;103;;;5\n007;1;1;0;104;;;6\n'), DAY, []);
    assert.deepEqual(zeros.lines, [`${head(7)} 0 10000 0 1030000 0 0 5 1 10000 0 1040000 0 0 6`]);
});

test('the lines of a night are said as they are', async () => {
    const [admit, other] = example('evening.txt');
    const desk = await openDesk(asText([admit, other]));
    const { lines } = await desk.night(bytesOfExample('exchange.txt'), '4 0 0 0 0 0 0 0 0 0 0 0'.split(' '), []);
    const heard = await desk.say(lines);
    assert.deepEqual(heard.map(({ text, accepted }) => [text, accepted]), lines.map((line) => [line, true]));
    assert.deepEqual(heard.map(({ answer }) => answer), answersTo('evening', [admit, other, ...lines]).slice(2));
});

test('a bad line of the exchange’s text is refused with its number, and shown', async () => {
    const desk = await openDesk();
    const refused = async (text) => {
        const { refused: said, bad, lines } = await desk.night(bytesOf(text), DAY, []);
        assert.equal(lines, undefined);
        assert.equal(said.text, 'a line of the exchange’s text is bad');
        return [said.number, said.line, bad];
    };
    assert.deepEqual(await refused(`${row(7)}7;0;1\n`), [15, 2, '7;0;1']);
    assert.deepEqual(await refused('nothing\r\n'), [15, 1, 'nothing']);
    assert.deepEqual(await refused(`${row(7)}\n${row(7)}`), [15, 2, '']);
    assert.deepEqual(await refused(`${row(7)}${row(8)}`.repeat(16) + row(8) + row(7)), [15, 33, row(8).trim()]);
    assert.deepEqual(await refused(`${'9'.repeat(300)}\n`), [15, 1, `${'9'.repeat(200)}…`]);
    assert.deepEqual(await refused(row(7).repeat(70000)), [15, 0, '']);
});

test('words that are no day are said as the program says it', async () => {
    const desk = await openDesk();
    await assert.rejects(desk.night(bytesOf(row(7)), ['4'], []), /night: usage:/);
});
