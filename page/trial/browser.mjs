// What the trials ask of a browser, whichever it is: chromium.mjs and firefox.mjs drive one each, and what both do
// alike stands here.
import fs from 'node:fs';
import os from 'node:os';
import path from 'node:path';

/**
 * @typedef {object} Driver  What a browser of its own has to do.
 * @property {string} name
 * @property {(url: string) => Promise<void>} go  Opens a page.
 * @property {(expression: string) => Promise<any>} value  The value of an expression in the page, a promise awaited.
 * @property {(selector: string, file: string) => Promise<void>} give  Puts a file into a field for files.
 * @property {(key: string) => Promise<void>} press  Presses a key of KEYS; `Shift+` or `Control+` may stand before it.
 * @property {(text: string) => Promise<void>} type  Types a text where the keyboard is.
 * @property {(selector: string) => Promise<void>} click  Clicks an element that can be seen.
 * @property {(width: number, height: number, isDark: boolean) => Promise<void>} resize
 * @property {(language: string) => Promise<void>} speak  Says which language the reader has; the next page knows it.
 * @property {() => Promise<Buffer>} photograph  What is seen, as PNG.
 * @property {() => Promise<Buffer>} print  The page on A4, as PDF.
 * @property {() => Promise<string[]>} arrived  The files that are downloaded, each whole.
 * @property {() => Promise<boolean>} leave  Tries to leave the page, and stays where it asks: whether it asked.
 * @property {() => Promise<string[]>} complaints  Errors of the page, and what it asked for beside itself.
 * @property {() => Promise<void>} end
 *
 * @typedef {Awaited<ReturnType<typeof makeBrowser>>} Browser
 */

const PATIENCE = 30_000; // milliseconds; a busy machine is slow
const LOOK_AGAIN = 20;
const TABS_MOST = 400;

export const later = (/** @type {number} */ milliseconds) => new Promise((done) => setTimeout(done, milliseconds));

/** The keys that have a name: the code that Chromium asks for, what it writes, and WebDriver's character. */
export const KEYS = {
    Tab: { code: 9, driver: '\uE004' },
    Enter: { code: 13, text: '\r', driver: '\uE007' },
    Escape: { code: 27, driver: '\uE00C' },
    ' ': { code: 32, text: ' ', driver: ' ' },
    End: { code: 35, driver: '\uE010' },
    Home: { code: 36, driver: '\uE011' },
    ArrowLeft: { code: 37, driver: '\uE012' },
    ArrowUp: { code: 38, driver: '\uE013' },
    ArrowRight: { code: 39, driver: '\uE014' },
    ArrowDown: { code: 40, driver: '\uE015' },
    Delete: { code: 46, driver: '\uE017' },
    a: { code: 65, driver: 'a' },
};

/** A press of a key in its parts. */
export function pressOf(/** @type {string} */ press) {
    const words = press.split('+');
    const key = /** @type {keyof typeof KEYS} */ (words.pop());
    if (KEYS[key] === undefined) throw new Error(`there is no key '${key}'`);
    return { key, ...KEYS[key], isShift: words.includes('Shift'), isControl: words.includes('Control') };
}

/**
 * The answers that are waited for, by the numbers of their questions. A browser that ends answers none of them.
 * @returns {{ next: () => { number: number, answer: Promise<any> }, answer: (number: number, answer: any) => void,
 *     refuse: (number: number, words: string) => void, end: (words: string) => void }}
 */
export function makeWaiting() {
    const waiting = new Map();
    let last = 0;
    let ended = '';
    const take = (/** @type {number} */ number) => {
        const one = waiting.get(number);
        waiting.delete(number);
        return one;
    };
    return {
        next() {
            last += 1;
            const number = last;
            const answer = new Promise((done, refuse) => {
                if (ended === '') waiting.set(number, { done, refuse });
                else refuse(new Error(ended));
            });
            return { number, answer };
        },
        answer: (number, answer) => take(number)?.done(answer),
        refuse: (number, words) => take(number)?.refuse(new Error(words)),
        end(words) {
            ended = words;
            for (const number of [...waiting.keys()]) take(number).refuse(new Error(words));
        },
    };
}

/** A folder of a browser's own, for its profile and for what it downloads. */
export function makeFolder() {
    const folder = fs.mkdtempSync(path.join(os.tmpdir(), 'page-trial-'));
    const downloads = path.join(folder, 'downloads');
    fs.mkdirSync(downloads);
    return { folder, downloads };
}

/** Asks again and again until there is an answer. @template T @returns {Promise<T>} */
export async function until(/** @type {() => T | Promise<T>} */ ask, /** @type {string} */ what) {
    for (const end = Date.now() + PATIENCE; Date.now() < end; await later(LOOK_AGAIN)) {
        const answer = await ask();
        if (answer) return answer;
    }
    throw new Error(`it never came: ${what}`);
}

/** An expression of what a selector finds. */
export const at = (/** @type {string} */ selector) => `document.querySelector(${JSON.stringify(selector)})`;

/** A browser with what the trials do in it, each by what its driver can do. */
export function makeBrowser(/** @type {Driver} */ driver) {
    const browser = {
        ...driver,
        until: (/** @type {string} */ expression) => until(() => driver.value(expression), expression),
        text: (/** @type {string} */ selector) => driver.value(`${at(selector)}.textContent`),
        async size(/** @type {number} */ width, /** @type {number} */ height, isDark = false) {
            await driver.resize(width, height, isDark);
            await later(200); // drawings follow their room
        },
        async picture(/** @type {string} */ file) {
            fs.writeFileSync(file, await driver.photograph());
        },
        /** Goes by the key Tab until the keyboard is at an element. */
        async tabTo(/** @type {string} */ selector, key = 'Tab') {
            const place = `[${at(selector)} !== null, document.activeElement === ${at(selector)}]`;
            for (let tab = 0; tab < TABS_MOST; tab += 1) {
                const [isKnown, isThere] = await driver.value(place);
                if (!isKnown) throw new Error(`there is no ${selector}`);
                if (isThere) return;
                await driver.press(key);
            }
            throw new Error(`${TABS_MOST} times ${key} do not reach ${selector}`);
        },
        /** Types in place of what the field has where the keyboard is; a choice is made by its first letters. */
        async write(/** @type {string} */ text) {
            const isFilled = await driver.value(
                "document.activeElement.localName !== 'select' && document.activeElement.value !== ''");
            if (isFilled) {
                await driver.press('Control+a');
                await driver.press('Delete');
            }
            if (text !== '') await driver.type(text);
        },
        /** What a press downloads: its name and its bytes. */
        async downloaded(/** @type {() => Promise<unknown>} */ act) {
            const before = (await driver.arrived()).length;
            await act();
            const file = await until(async () => (await driver.arrived())[before], 'a download');
            const bytes = fs.readFileSync(file);
            fs.rmSync(file); // the next one may have its name
            return { name: path.basename(file), bytes };
        },
    };
    return browser;
}
