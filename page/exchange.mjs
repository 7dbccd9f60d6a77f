// Tonight's evaluations from the exchange's own text (docs/EXCHANGE.md): the program `night` reads the whole text at
// once, and makes a line of the evening's text for each of its securities.
import { linesOf, textOf } from './programs.mjs';
import { refusedOf } from './refusals.mjs';

const SHOWN_MOST = 200; // characters of a bad line

/** A line of a text by its number, counted from 1, without what ends it. */
function lineAt(/** @type {Uint8Array} */ bytes, /** @type {number} */ number) {
    const line = (textOf(bytes).split('\n')[number - 1] ?? '').replace(/\r$/, '');
    return line.length > SHOWN_MOST ? `${line.slice(0, SHOWN_MOST)}…` : line;
}

/**
 * The evaluations of a night, one for each security of the text and one without rows for each further id.
 * @param {{ runSaying: (name: string, input: Uint8Array, words: string[]) =>
 *     Promise<{ output: Uint8Array, said: string }> }} programs
 * @param {Uint8Array} bytes  The exchange's text.
 * @param {string[]} day  The words of an evaluation behind its id.
 * @param {string[]} ids  Securities that are to be evaluated though the text does not have them.
 * @returns {Promise<{ lines: string[] } | { refused: import('./refusals.mjs').Refused, bad: string }>}  `bad` is the
 *     line at fault.
 */
export async function nightOf(programs, bytes, day, ids) {
    const { output, said } = await programs.runSaying('night', bytes, [...day, ...ids]);
    const refused = refusedOf(said);
    if (refused !== undefined) return { refused, bad: lineAt(bytes, refused.line ?? 0) };
    if (said !== '') throw new Error(`night: ${said}`);
    return { lines: linesOf(output) };
}
