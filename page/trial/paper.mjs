// The page on paper: A4, in black and white, the head of the table on each sheet, every security once. Debian's
// poppler-utils reads what the browser printed.
import assert from 'node:assert/strict';
import { execFileSync } from 'node:child_process';
import fs from 'node:fs';
import { openFile, openPage } from './member.mjs';
import { TABLE } from './shown.mjs';

const A4 = [595, 842]; // points
const NEAR = 2;
const HEADS = ['Evaluation', 'Volatility', 'Tentative'];
const COLOURED = 40; // how far the parts of a grey may be from each other: the printers' edges are not quite grey

/** What poppler says of a file. */
const ask = (/** @type {string} */ program, /** @type {string[]} */ ...words) => (
    execFileSync(program, words, { maxBuffer: 2 ** 30 }));

/** The pages' sizes in points. */
function sizesOf(/** @type {string} */ file) {
    const info = ask('pdfinfo', '-f', '1', '-l', '9999', file).toString();
    return [...info.matchAll(/^Page +\d+ size: +([\d.]+) x ([\d.]+) pts/gm)].map(([, ...size]) => size.map(Number));
}

/** The points of a page that are no grey: after the head of a PPM come three bytes a point. */
function colouredIn(/** @type {string} */ file, /** @type {number} */ page) {
    const ppm = ask('pdftoppm', '-r', '40', '-f', String(page), '-l', String(page), file);
    const head = /^P6\s+\d+\s+\d+\s+255\s/.exec(ppm.subarray(0, 64).toString('latin1'));
    let coloured = 0;
    for (let at = /** @type {RegExpExecArray} */ (head)[0].length; at < ppm.length; at += 3) {
        const [red, green, blue] = ppm.subarray(at, at + 3);
        if (Math.max(red, green, blue) - Math.min(red, green, blue) > COLOURED) coloured += 1;
    }
    return coloured;
}

export async function onPaper(/** @type {import('./browser.mjs').Browser} */ browser,
    /** @type {import('./house.mjs').House} */ house) {
    await openPage(browser, house);
    await openFile(browser, house.random);
    const file = house.paperOf(browser.name, 'sheet');
    fs.writeFileSync(file, await browser.print());
    const sizes = sizesOf(file);
    assert.ok(sizes.length >= 5, `512 securities stand on ${sizes.length} pages`);
    for (const size of sizes) {
        const isA4 = [0, 1].every((side) => Math.abs([...size].sort((a, b) => a - b)[side] - A4[side]) <= NEAR);
        assert.ok(isA4, `a page has ${size.join(' by ')} points, and A4 has ${A4.join(' by ')}`);
    }
    const pages = ask('pdftotext', '-layout', file, '-').toString().split('\f').slice(0, sizes.length);
    pages.forEach((text, index) => {
        for (const head of HEADS) assert.ok(text.includes(head), `page ${index + 1} has no head '${head}'`);
    });
    for (const page of [1, sizes.length]) assert.equal(colouredIn(file, page), 0, `page ${page} has colours`);
    const ids = (await browser.value(TABLE)).map((/** @type {{ id: string }} */ row) => row.id);
    const printed = pages.join('\n').match(/^ *\d+(?= )/gm)?.map((id) => id.trim()) ?? [];
    const missing = ids.filter((/** @type {string} */ id) => !printed.includes(id));
    assert.deepEqual(missing, [], 'securities that are not printed');
    return `${ids.length} securities on ${sizes.length} pages of A4, black and white, the head on each`;
}
