// Lines performed one after the other, of which a refused one changes nothing: not even the number of the next line.
import { makeBreath } from './breath.mjs';
import { heardOf, isAccepted } from './heard.mjs';

/**
 * @typedef {import('./heard.mjs').Heard} Heard
 * @typedef {import('./telling.mjs').Known} Known
 * @typedef {import('./telling.mjs').Told} Told
 * @typedef {Awaited<ReturnType<typeof import('./telling.mjs').startTelling>>} Telling
 */

const LINES_NEAR = 32; // so many are heard again more quickly than a memory is kept

/**
 * The programs hear twice as many lines at once as were accepted of late. Where one is refused they go back to what
 * they knew a few lines ago, and hear again what was accepted since.
 * @param {Telling} telling
 * @param {Known} start  What the programs know now. It is left as it is.
 * @param {string[]} texts
 * @param {(text: string, told: Told) => void} take  Is handed each accepted line.
 * @returns {Promise<Heard[]>}
 */
export async function perform(telling, start, texts, take) {
    const breathe = makeBreath();
    /** @type {Heard[]} */
    const heard = [];
    /** @type {Known | undefined} */
    let own;
    /** @type {string[]} */
    let since = [];
    let size = texts.length;
    while (heard.length < texts.length) {
        const some = texts.slice(heard.length, heard.length + size);
        const told = telling.hear(some);
        const refused = told.findIndex(({ answer }) => !isAccepted(answer));
        const accepted = refused < 0 ? some : some.slice(0, refused);
        accepted.forEach((text, at) => take(text, told[at]));
        some.slice(0, accepted.length + 1).forEach((text, at) => heard.push(heardOf(text, told[at])));
        since = [...since, ...accepted];
        if (refused >= 0) {
            telling.goBack(own ?? start);
            telling.hear(since);
        }
        if (since.length > LINES_NEAR && heard.length < texts.length) {
            own = telling.keep(own);
            since = [];
        }
        size = refused < 0 ? 2 * size : 1;
        await breathe();
    }
    return heard;
}
