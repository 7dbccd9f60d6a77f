// How long a full table with a year of days takes: 512 securities, 250 days, 128,512 lines. Opening, with all that the
// table shows, is held to 5 s and a typed line to 100 ms. Other work on the machine is left out: the opening is told by
// the processor's time of this process, a line by the middle one of many.
import assert from 'node:assert/strict';
import process from 'node:process';
import { before, test } from 'node:test';
import { COLUMNS, chosen } from '../columns.mjs';
import { makeDesk } from '../desk.mjs';
import { bytesOf } from '../programs.mjs';
import { makeEvening } from './evenings.mjs';
import { programs } from './release.mjs';

const SECURITIES = 512;
const DAYS = 250;
const OPENED_MOST = 5000; // milliseconds
const LINE_MOST = 100;
const BATCH_MOST = 2000;

const lines = makeEvening({ seed: 7, securities: SECURITIES, days: DAYS, plain: true });
const desk = makeDesk(programs);
const ids = Array.from({ length: SECURITIES }, (_, at) => 1001 + at);

/** Does something, and says how long it took: by the clock, and of the processor's time. */
async function timed(work) {
    const began = performance.now();
    const used = process.cpuUsage();
    const result = await work();
    const { user, system } = process.cpuUsage(used);
    return { result, clock: performance.now() - began, processor: (user + system) / 1000 };
}

const whole = (milliseconds) => milliseconds.toFixed(1);
const middle = (numbers) => [...numbers].sort((one, other) => one - other)[Math.floor(numbers.length / 2)];

/** The middle time of something that is done for each of some things. */
async function middleOf(t, name, things, work) {
    const times = [];
    for (const thing of things) times.push((await timed(() => work(thing))).clock);
    const most = whole(Math.max(...times));
    t.diagnostic(`${name}: ${whole(middle(times))} ms, the middle one of ${times.length}; ${most} at most`);
    return middle(times);
}

/** A security's last evaluation, some days later. */
function later(id, days) {
    const [call, which, day, ...words] = desk.lastEvaluation(id).split(' ');
    return [call, which, Number(day) + days, ...words].join(' ');
}

let opening;
before(async () => {
    opening = await timed(async () => {
        await desk.open(bytesOf(lines.map((line) => `${line}\n`).join('')));
        return COLUMNS.map(({ key }) => chosen(desk.sheet.securities, { key }).length);
    });
});

test('a full table with a year of days is opened', (t) => {
    t.diagnostic(`opened: ${whole(opening.processor)} ms of the processor, ${whole(opening.clock)} ms by the clock`);
    assert.equal(lines.length, 128512);
    assert.deepEqual(new Set(opening.result), new Set([SECURITIES]));
    assert.deepEqual([desk.sheet.lines, desk.sheet.refusals.length], [lines.length, 0]);
    assert.ok(desk.sheet.securities.every(({ days }) => days.length === DAYS));
    assert.ok(opening.processor <= OPENED_MOST, `${whole(opening.processor)} ms`);
});

test('a line is said, asked and undone in it, and a what-if tried', async (t) => {
    const some = ids.filter((_, at) => at % 16 === 0);
    const held = (time) => assert.ok(time <= LINE_MOST, `${whole(time)} ms`);
    held(await middleOf(t, 'said', some, (id) => desk.say([later(id, 1)])));
    assert.equal(desk.unsaved, some.length);
    held(await middleOf(t, 'refused', some, (id) => desk.say([later(id, 0)])));
    held(await middleOf(t, 'asked', some, (id) => desk.ask([later(id, 1)])));
    held(await middleOf(t, 'what if', some, (id) => desk.whatIf(id, desk.lastEvaluation(id).replace(/5$/, '6'))));
    assert.equal(desk.unsaved, some.length);
    held(await middleOf(t, 'undone', some, () => desk.undo()));
    assert.equal(desk.unsaved, 0);
    assert.equal(desk.text().length, lines.join('\n').length + 1);
});

for (const [name, each] of [['all taken', 0], ['each fourth refused', 4], ['all refused', 1]]) {
    test(`a night’s evaluations of all securities are said at once, ${name}`, async (t) => {
        const refused = ids.filter((_, at) => each > 0 && at % each === 0);
        const said = ids.map((id) => later(id, refused.includes(id) ? 0 : 1));
        const { result, clock, processor } = await timed(() => desk.say(said));
        t.diagnostic(`512 evaluations: ${whole(processor)} ms of the processor, ${whole(clock)} ms by the clock`);
        assert.deepEqual(result.map(({ text }) => text), said);
        assert.equal(result.filter(({ accepted }) => !accepted).length, refused.length);
        assert.ok(processor <= BATCH_MOST, `${whole(processor)} ms`);
    });
}

test('the exchange’s text of all securities with sixteen rows each becomes their evaluations', async (t) => {
    const rowOf = (id, day) => `${id};${day};1.0000;7.30;103.0000;102.9500;103.0500;12\n`;
    const rows = Array.from({ length: 16 }, (_, day) => day);
    const text = rows.flatMap((day) => ids.map((id) => rowOf(id, day))).join('');
    assert.ok(text.length > 300000);
    const day = '900 0 0 0 0 0 0 0 0 0 0 0'.split(' ');
    await desk.night(bytesOf(''), day, []); // the module is compiled once
    const { result, clock, processor } = await timed(() => desk.night(bytesOf(text), day, []));
    t.diagnostic(`${text.length} bytes: ${whole(processor)} ms of the processor, ${whole(clock)} ms by the clock`);
    assert.deepEqual(result.lines.map((line) => Number(line.split(' ')[1])), ids);
    assert.ok(result.lines.every((line) => line.split(' ').length === 14 + 7 * rows.length));
    assert.ok(processor <= LINE_MOST, `${whole(processor)} ms`);
});
