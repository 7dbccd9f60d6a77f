// Runs a WebAssembly program of a release on each file of an index, in one process, as outside/pieces.py runs a program
// for `each`: a line of the index is the words and then the file. It prints the answers, and the line before those of
// `listen` and `night`. What `night` says of a bad text, and `listen --whole` of what is not one whole stream, on
// standard error and perhaps with status 1, is the answer, or its end.
//   node outside/modules.mjs FOLDER NAME <INDEX
// FOLDER is an unpacked release of WebAssembly. Status 1 says that a program ended with another status than 0.
import fs from 'node:fs';
import path from 'node:path';
import process from 'node:process';

const [folder, name] = process.argv.slice(2);
const { load, run } = await import(path.resolve(folder, 'run.mjs'));
const module = load(path.join(folder, `${name}.wasm`));

function answers(words, input) {
    const answered = [];
    let at = 0;
    const read = (_, bytes) => {
        const some = input.subarray(at, at + bytes.length);
        bytes.set(some);
        at += some.length;
        return some.length;
    };
    const write = (to, bytes) => {
        if (to === 1 || ['listen', 'night'].includes(name)) answered.push(Buffer.from(bytes));
        return bytes.length;
    };
    const status = run(module, [name, ...words], read, write);
    const answer = Buffer.concat(answered);
    const isBadText = name === 'night' && status === 1 && /^15 [0-9]+\n$/.test(answer.toString());
    const isNotWhole = words[0] === '--whole' && answer.toString().endsWith('listen: not one whole stream\n');
    if (status !== 0 && !isBadText && !isNotWhole) throw new Error(`${name} fails on ${words.join(' ')}`);
    return answer;
}

try {
    for (const line of fs.readFileSync(0, 'utf8').split('\n').slice(0, -1)) {
        const words = line.split(' ');
        const file = words.pop();
        const text = answers(words, fs.readFileSync(file));
        if (['listen', 'night'].includes(name)) process.stdout.write(`${line}\n`);
        process.stdout.write(text);
    }
} catch (error) {
    console.error(`modules: ${error.message}`);
    process.exitCode = 1;
}
