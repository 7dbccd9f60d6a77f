// The programs run on bytes, each run by itself, and say so where their words are wrong.
import assert from 'node:assert/strict';
import { test } from 'node:test';
import { linesOf } from '../programs.mjs';
import { example, programs } from './release.mjs';

const bytes = (text) => new TextEncoder().encode(text);

test('an evening is answered a line a call', async () => {
    const answers = linesOf(await programs.run('evening', example('evening.txt')));
    assert.equal(answers.length, 135);
    assert.match(answers[2], /^0 7 1 4 1030000 1000000 21214 700 0 800 1200 1500 /);
    assert.equal(answers[25], 'bad 26');
});

test('two runs of a program know nothing of each other', async () => {
    const admit = bytes(`${linesOf(example('evening.txt'))[0]}\n`);
    assert.deepEqual(linesOf(await programs.run('evening', admit)), ['0']);
    assert.deepEqual(linesOf(await programs.run('evening', admit)), ['0']);
});

test('a broadcast is heard', async () => {
    const messages = await programs.run('broadcast', example('evening.txt'));
    const heard = linesOf(await programs.run('listen', messages));
    assert.ok(heard.includes('move 7 0 1 1133000 1174200 1205100 1091800 1091800 1091800'));
});

test('a program may say something on standard error, and then nothing is taken for its answer', async () => {
    const words = '4 0 0 0 0 0 0 0 0 0 0 0'.split(' ');
    const lines = linesOf(await programs.run('night', example('exchange.txt'), words));
    assert.match(lines[0], /^evaluate 7 4 0 0 0 0 0 0 0 0 0 0 0 0 10000 0 1030000 0 0 5 /);
    const made = await programs.runSaying('night', bytes('7;0;1\n'), words);
    assert.deepEqual([made.output.length, made.said], [0, '15 1']);
    await assert.rejects(programs.run('night', bytes('7;0;1\n'), words), /^Error: night: 15 1$/);
    await assert.rejects(programs.run('night', example('exchange.txt')), /usage:/);
});

test('there is no other program', async () => {
    await assert.rejects(programs.run('other', bytes('')), /no program 'other'/);
});
