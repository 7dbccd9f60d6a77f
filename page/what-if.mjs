// What would be if another line stood in place of a security's last evaluation: the programs are told the security's
// own lines up to there and the interest lines among them, which is all that an evaluation looks at, and then this one.
import { wordsOf } from './answers.mjs';
import { makeEveningSheet } from './evening-sheet.mjs';
import { heardOf } from './heard.mjs';
import { dayAt } from './security.mjs';
import { startTelling } from './telling.mjs';

/**
 * @typedef {import('./heard.mjs').Heard} Heard
 * @typedef {ReturnType<typeof dayAt>} Day
 * @typedef {Awaited<ReturnType<typeof startTelling>>} Telling
 * @typedef {object} Compared
 * @property {Heard} before
 * @property {Heard} after
 * @property {{ before: Day, after: Day | null }} days  Both opened, as `dayAt` does; null where the line is refused.
 */

/** Whether a line begins as an evaluation of a security does. */
export function isEvaluationOf(/** @type {number} */ id, /** @type {string} */ line) {
    const [call, word] = wordsOf(line);
    return call === 'evaluate' && /^-?\d+$/.test(word) && Number(word) === id;
}

/** @param {{ compiled: (name: string) => Promise<WebAssembly.Module> }} programs */
export function makeWhatIf(programs) {
    /** @type {{ telling: Telling, empty: import('./telling.mjs').Known } | undefined} */
    let aside;

    /** Programs of their own, with an empty table. */
    async function emptyTelling() {
        if (aside === undefined) {
            const telling = await startTelling(programs);
            aside = { telling, empty: telling.keep() };
        }
        aside.telling.goBack(aside.empty);
        return aside.telling;
    }

    /** What is told of a line behind others; it has the number that it has in the text. */
    async function told(/** @type {string[]} */ before, /** @type {string} */ line, /** @type {number} */ number) {
        const telling = await emptyTelling();
        telling.hear(before);
        const [answers] = telling.hear([line]);
        if (!answers.answer.startsWith('bad')) return answers;
        // A line that is no call is answered with its number, and looks at nothing: blank lines count up to it.
        const counting = await emptyTelling();
        counting.hear(Array(number - 1).fill(''));
        return counting.hear([line])[0];
    }

    /**
     * @param {ReturnType<typeof makeEveningSheet>} paper
     * @param {number} id of a security that has an evaluation
     * @param {string} line
     * @returns {Promise<Compared>}
     */
    return async (paper, id, line) => {
        const security = paper.securityOf(id);
        const was = security.days.at(-1);
        const { number } = was.line;
        const own = paper.linesOf(id).filter((one) => one.line.number < number);
        const looked = [...own, ...paper.interests.filter((one) => one.line.number < number)]
            .sort((one, other) => one.line.number - other.line.number);
        const answers = await told(looked.map((one) => one.line.text), line, number);
        const after = heardOf(line, answers);
        const shadow = makeEveningSheet();
        own.forEach((one) => shadow.hear(one));
        shadow.hear({ line: { number, text: line }, ...answers });
        const days = {
            before: dayAt(security, security.days.length - 1),
            after: after.accepted ? dayAt(shadow.securityOf(id), security.days.length - 1) : null,
        };
        return { before: heardOf(was.line.text, was), after, days };
    };
}
