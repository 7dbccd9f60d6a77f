// The evening as two programs tell it: `evening` and `why` wait side by side for their next lines and are told the same
// ones. What both know can be kept and put back.
import { isAnswered } from './evening-sheet.mjs';
import { startLive } from './live.mjs';
import { bytesOf } from './programs.mjs';

/**
 * @typedef {{ answer: string, why: string }} Told  What the two answered to a line; both are '' for one that says
 *     nothing.
 * @typedef {{ evening: import('./live.mjs').Kept, why: import('./live.mjs').Kept }} Known
 */

/** The lines that a program answered: each is ended by a line feed. */
const linesOf = (/** @type {string} */ text) => text.split('\n').slice(0, -1);

/**
 * Starts both, with an empty table.
 * @param {{ compiled: (name: string) => Promise<WebAssembly.Module> }} programs
 */
export async function startTelling(programs) {
    const evening = await startLive(await programs.compiled('evening'));
    const why = await startLive(await programs.compiled('why'));
    return {
        /**
         * Tells both some lines, without the line feeds that end them.
         * @param {string[]} lines
         * @returns {Told[]}
         */
        hear(lines) {
            const bytes = bytesOf(lines.map((line) => `${line}\n`).join(''));
            const answers = linesOf(evening.hear(bytes));
            const whys = linesOf(why.hear(bytes));
            let at = 0;
            const told = lines.map((line) => {
                if (!isAnswered(line)) return { answer: '', why: '' };
                at += 1;
                return { answer: answers[at - 1], why: whys[at - 1] };
            });
            if (at !== answers.length || at !== whys.length) {
                throw new Error(`${at} lines have ${answers.length} answers and ${whys.length} reasons`);
            }
            return told;
        },
        /**
         * What both know.
         * @param {Known} [old] one that is no more wanted, for its room
         * @returns {Known}
         */
        keep: (old) => ({ evening: evening.keep(old?.evening), why: why.keep(old?.why) }),
        goBack(/** @type {Known} */ known) {
            evening.goBack(known.evening);
            why.goBack(known.why);
        },
    };
}
