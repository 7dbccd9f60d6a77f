// What the trials have beside a browser: the page, the example and the random evening, the answers of the released
// program for this machine, and files of their own.
import assert from 'node:assert/strict';
import { execFileSync, spawnSync } from 'node:child_process';
import fs from 'node:fs';
import os from 'node:os';
import path from 'node:path';
import process from 'node:process';
import { fileURLToPath } from 'node:url';

export const top = path.resolve(path.dirname(fileURLToPath(import.meta.url)), '../..');
const ANSWERS_MOST = 2 ** 30;

/** @typedef {ReturnType<typeof makeHouse>} House */

/** @param {{ page: string, random: string }} given the page and the random evening's text */
export function makeHouse({ page, random }) {
    const folder = fs.mkdtempSync(path.join(os.tmpdir(), 'page-files-'));
    const version = fs.readFileSync(path.join(top, 'VERSION'), 'utf8').trim();
    const machine = execFileSync('uname', ['-m'], { encoding: 'utf8' }).trim();
    const released = `nedrubal-${version}-linux-${machine}`;
    execFileSync('tar', ['-xzf', path.join(top, `target/release/${released}.tar.gz`), '-C', folder]);
    const program = path.join(folder, released, 'bin/nedrubal');
    const pictures = path.join(top, 'target/page');
    fs.mkdirSync(pictures, { recursive: true });
    return {
        page,
        random,
        example: (/** @type {string} */ name) => path.join(top, 'examples', name),
        /** Writes a file of the trials' own. */
        fileOf(/** @type {string} */ name, /** @type {Uint8Array | string} */ bytes) {
            fs.writeFileSync(path.join(folder, name), bytes);
            return path.join(folder, name);
        },
        /** What a program answers to bytes. `listen` ends with status 1 where it printed `refused`. */
        run(/** @type {string} */ name, /** @type {Uint8Array} */ bytes, /** @type {string[]} */ ...words) {
            const { status, stdout } = spawnSync(program, [name, ...words], { input: bytes, maxBuffer: ANSWERS_MOST });
            assert.ok(status === 0 || (name === 'listen' && status === 1), `${name} ends with status ${status}`);
            return stdout;
        },
        pictureOf: (/** @type {string} */ browser, /** @type {string} */ name) => (
            path.join(pictures, `${browser.split(' ')[0].toLowerCase()}-${name}.png`)),
        paperOf: (/** @type {string} */ browser, /** @type {string} */ name) => (
            path.join(pictures, `${browser.split(' ')[0].toLowerCase()}-${name}.pdf`)),
        leave: () => fs.rmSync(folder, { recursive: true, force: true }),
    };
}

/** The lines of bytes, a character a byte. */
export const linesOf = (/** @type {Buffer} */ bytes) => bytes.toString('latin1').split('\n').slice(0, -1);

/** Says what is tried, with its seconds. */
export async function timed(/** @type {string} */ name, /** @type {() => Promise<string>} */ act) {
    const began = performance.now();
    const said = await act();
    const seconds = ((performance.now() - began) / 1000).toFixed(1);
    process.stdout.write(`    ${name}: ${said} (${seconds} s)\n`);
}
