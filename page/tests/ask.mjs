// The programs of the release for the tests: their answers to a text, by release/wasm/run.mjs.
import { execFileSync } from 'node:child_process';
import fs from 'node:fs';
import { run } from '../../release/wasm/run.mjs';

const root = new URL('../../', import.meta.url);
const version = fs.readFileSync(new URL('VERSION', root), 'utf8').trim();
const archive = new URL(`target/release/nedrubal-${version}-wasm.tar.gz`, root).pathname;

/** @type {Map<string, WebAssembly.Module>} */
const modules = new Map();

function moduleOf(/** @type {string} */ program) {
    const known = modules.get(program);
    if (known !== undefined) return known;
    const file = `nedrubal-${version}-wasm/${program}.wasm`;
    const module = new WebAssembly.Module(execFileSync('tar', ['-xzOf', archive, file]));
    modules.set(program, module);
    return module;
}

/** What a program answers to a text. */
export function ask(/** @type {string} */ program, /** @type {string} */ text, /** @type {string[]} */ ...words) {
    const input = Buffer.from(text, 'latin1');
    /** @type {Buffer[]} */
    const answers = [];
    let at = 0;
    const status = run(
        moduleOf(program),
        [program, ...words],
        (_, bytes) => {
            const count = input.copy(bytes, 0, at);
            at += count;
            return count;
        },
        (_, bytes) => {
            answers.push(Buffer.from(bytes));
            return bytes.length;
        },
    );
    if (status !== 0) throw new Error(`${program} ended with ${status}: ${Buffer.concat(answers)}`);
    return Buffer.concat(answers).toString('latin1');
}

/** A line's answer each. */
export const answersTo = (/** @type {string} */ program, /** @type {string[]} */ lines) => (
    ask(program, lines.map((line) => `${line}\n`).join('')).split('\n').slice(0, -1));

/** The lines of an example. */
export const example = (/** @type {string} */ name) => (
    fs.readFileSync(new URL(`examples/${name}`, root), 'latin1').split('\n').slice(0, -1));
