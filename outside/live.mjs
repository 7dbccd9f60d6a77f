// Asks a program that the page carries, as the page does: once with all of its input, and once line by line, where it
// waits for each line and has to have answered it before the next (page/live.mjs). It prints the answers.
//   node outside/live.mjs PAGE NAME <LINES
// PAGE is nedrubal.html, NAME evening or why. Status 1 says that the two ways differ, or that an answer came late.
import fs from 'node:fs';
import process from 'node:process';
import { startLive } from '../page/live.mjs';
import { makePrograms } from '../page/programs.mjs';

const [page, name] = process.argv.slice(2);
const CARRIED = /<script type="application\/json" id="carried">(.*?)<\/script>/s;
const carried = JSON.parse(CARRIED.exec(fs.readFileSync(page, 'utf8'))[1]);
const programs = makePrograms({ [name]: Buffer.from(carried.programs[name], 'base64') });
const input = fs.readFileSync(0);
const LINE_FEED = 10;

/** The answers line by line. A line more may be without a line feed; the program hears it when the input ends. */
async function byLine() {
    const live = await startLive(await programs.compiled(name));
    const answers = [];
    for (let from = 0, end = input.indexOf(LINE_FEED); end >= 0; from = end + 1, end = input.indexOf(LINE_FEED, from)) {
        const answer = live.hear(input.subarray(from, end + 1));
        if (!/^(?:[^\n]+\n)?$/.test(answer)) throw new Error(`to one line it answers '${answer}'`);
        answers.push(answer);
    }
    return Buffer.from(answers.join(''), 'latin1');
}

try {
    const whole = await programs.run(name, input.subarray(0, input.lastIndexOf(LINE_FEED) + 1));
    const lines = await byLine();
    if (!lines.equals(whole)) throw new Error('line by line it answers otherwise than to all lines at once');
    process.stdout.write(await programs.run(name, input));
} catch (error) {
    console.error(`live: ${name}: ${error.message}`);
    process.exitCode = 1;
}
