// The programs that the page carries, for the tests: outside/page makes the page, of the release in target/release.
import fs from 'node:fs';
import path from 'node:path';
import { fileURLToPath } from 'node:url';
import { makePrograms } from '../programs.mjs';

export const top = path.resolve(path.dirname(fileURLToPath(import.meta.url)), '../..');
const page = fs.readFileSync(path.join(top, 'target/release/nedrubal.html'), 'utf8');
const carried = JSON.parse(/<script type="application\/json" id="carried">(.*?)<\/script>/s.exec(page)[1]);

export const programs = makePrograms(
    Object.fromEntries(Object.entries(carried.programs).map(([name, text]) => [name, Buffer.from(text, 'base64')])),
);

export const example = (name) => new Uint8Array(fs.readFileSync(path.join(top, 'examples', name)));
