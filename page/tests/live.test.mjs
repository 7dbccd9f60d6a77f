// A program that waits for its lines answers as one that is run on all of them: a line at a time, in pieces, and from a
// state that was kept. The answers are held against those of the release's own modules, which no wasm-opt has seen.
import assert from 'node:assert/strict';
import { test } from 'node:test';
import { startLive } from '../live.mjs';
import { bytesOf, textOf } from '../programs.mjs';
import { ask, example } from './ask.mjs';
import { makeEvening } from './evenings.mjs';
import { programs } from './release.mjs';

const start = async (name) => startLive(await programs.compiled(name));
const asText = (lines) => lines.map((line) => `${line}\n`).join('');
const texts = {
    'the example evening': asText(example('evening.txt')),
    'the example of why': asText(example('why.txt')),
    'the cases': asText(example('cases.txt')),
    'a random evening': asText(makeEvening({ seed: 11, securities: 12, days: 15 })),
    'blank lines, a long one and other bytes': `\n \t\r\n${' '.repeat(70000)}\nread 1\n\x00\x80\x9f\xff\n\nread\xa02\n`,
};

for (const program of ['evening', 'why']) {
    for (const [name, text] of Object.entries(texts)) {
        const whole = ask(program, text);

        test(`${program}: ${name}, run on all of it`, async () => {
            assert.equal(textOf(await programs.run(program, bytesOf(text))), whole);
        });

        test(`${program}: ${name}, heard at once and a line at a time`, async () => {
            const [once, byLine] = [await start(program), await start(program)];
            assert.equal(once.hear(bytesOf(text)), whole);
            const answers = text.split(/(?<=\n)/).map((line) => byLine.hear(bytesOf(line)));
            assert.equal(answers.join(''), whole);
            assert.ok(answers.every((answer) => /^(?:[^\n]+\n)?$/.test(answer))); // each as soon as its line is whole
        });

        test(`${program}: ${name}, in pieces that end anywhere`, async () => {
            const live = await start(program);
            let answers = '';
            for (let at = 0, size = 1; at < text.length; at += size, size = (size * 7) % 1009) {
                answers += live.hear(bytesOf(text.slice(at, at + size)));
            }
            assert.equal(answers, whole);
        });
    }

    test(`${program}: a state that was kept is put back, and what was heard since is gone`, async () => {
        const lines = texts['the example evening'].split(/(?<=\n)/);
        const answers = ask(program, lines.join('')).split(/(?<=\n)/);
        const live = await start(program);
        const kept = lines.map((line, at) => {
            const before = live.keep();
            live.hear(bytesOf(lines.slice(at).reverse().join(''))); // the rest, the wrong way round
            live.goBack(before);
            assert.equal(live.hear(bytesOf(line)), answers[at]);
            return before;
        });
        for (const at of [134, 0, 65, 65, 12]) {
            live.goBack(kept[at]);
            assert.equal(live.hear(bytesOf(lines.slice(at).join(''))), answers.slice(at).join(''));
        }
    });

    test(`${program}: a state is another program's as well, and its room can be used again`, async () => {
        const [one, other] = [await start(program), await start(program)];
        const lines = example('evening.txt').map((line) => bytesOf(`${line}\n`));
        lines.slice(0, 40).forEach((line) => one.hear(line));
        const kept = one.keep();
        other.goBack(kept);
        assert.equal(other.hear(lines[63]), one.hear(lines[63]));
        const again = one.keep(kept);
        assert.equal(again.bytes, kept.bytes);
        one.hear(lines[0]);
        one.goBack(again);
        assert.match(one.hear(bytesOf('hello\n')), /^bad 42\n$/);
    });
}

test('nothing is kept in the middle of a line', async () => {
    const live = await start('evening');
    const kept = live.keep();
    live.hear(bytesOf('read '));
    assert.throws(() => live.keep(), /middle of a line/);
    assert.throws(() => live.goBack(kept), /middle of a line/);
    assert.equal(live.hear(bytesOf('7\n')), '1\n');
    live.goBack(live.keep());
    assert.equal(live.hear(bytesOf('hello\n')), 'bad 2\n');
});

test('a text is its bytes again, all of them, and what is no byte becomes one that no call has', () => {
    const all = Uint8Array.from({ length: 3000 }, (_, at) => at % 256);
    assert.equal(textOf(all).length, 3000);
    const mark = bytesOf('\xef\xbb\xbfread'); // some decoders drop it
    for (const bytes of [all, all.subarray(0, 128), all.subarray(128, 256), mark, bytesOf('é'), new Uint8Array(0)]) {
        assert.deepEqual(bytesOf(textOf(bytes)), Uint8Array.from(bytes));
        assert.ok([...textOf(bytes)].every((one, at) => one.charCodeAt(0) === bytes[at]));
    }
    assert.equal(textOf(bytesOf('read –7')), 'read ?7');
});
