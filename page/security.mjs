// A security with its days and what happened to it, as the programs printed them, and the sheet that has them. Nothing
// that a program prints is worked out here.
import { answerOf, briefOf, dayOf, reasonsOf } from './answers.mjs';
import { exactMove, hiddenByRounding } from './move.mjs';

/** What may have happened to a security, in the order in which it is shown. */
export const HAPPENED = {
    rose: 'rose',
    fell: 'fell',
    waits: 'waits',
    replaced: 'replaced',
    maximum: 'at the maximum',
    moved: 'moved',
    hidden: 'rounding would have hidden it',
};

/**
 * The record at admission, as far as an evaluation looks at it: the rates start at their minima, the age at 0.
 * @param {Object<string, any>} statics
 */
function admitted({ p1, p2, s, tentative, min1, min2, min3 }) {
    return { p1, p2, s, tentative, age: 0, s1: min1, s2: min2, s3: min3 };
}

/**
 * One day of a security, opened: its record, the one before it, the reasons and the exact move.
 * @param {Security} security
 * @param {number} at which of its days
 */
export function dayAt(security, at) {
    const { days, statics } = security;
    const recordAt = (which) => days[which].record ?? answerOf('evaluate', days[which].answer);
    const record = recordAt(at);
    const isEvening = days[at].line !== undefined;
    const before = at > 0 ? recordAt(at - 1) : isEvening ? admitted(statics) : null;
    const reasons = isEvening ? reasonsOf(days[at].why) : days[at].reasons ?? null;
    const { b, m } = isEvening ? dayOf(days[at].line.text) : { b: null, m: null };
    const move = before === null ? null : exactMove(record.p1, [before.p1, before.p2]);
    return { record, before, reasons, statics, b, m, move, line: days[at].line?.number ?? null };
}

/** What the mark looks at on a day of an evening; null where no reason could have it. */
function briefDay({ days, statics }, at) {
    const { why, answer } = days[at];
    const weight = why.includes(' weight up ') ? 'up' : '';
    const replacement = why.includes(' replacement yes ') ? 'yes' : '';
    if (weight === '' && replacement === '') return null;
    const before = at > 0 ? briefOf(days[at - 1].answer) : admitted(statics);
    const move = exactMove(briefOf(answer).p1, [before.p1, before.p2]);
    return { move, before, reasons: { weight, replacement }, statics };
}

/** Whether a day had a move that rounding would have hidden. */
function isHidden(security, at) {
    const day = security.days[at].why === undefined ? dayAt(security, at) : briefDay(security, at);
    const hidden = day === null ? null : hiddenByRounding(day);
    return hidden !== null && (hidden.volatility || hidden.rate);
}

function happenedTo(security) {
    const { record, days, statics, hidden } = security;
    const happened = new Set();
    const when = (key, holds) => holds && happened.add(key);
    if (days.length > 0) {
        const day = dayAt(security, days.length - 1);
        const { reasons, before } = day;
        // A broadcast of the old form carries no reasons, but a rate that rose or fell is seen by itself.
        const by = before === null ? 0 : day.record.tentative - before.tentative;
        when('rose', reasons ? reasons.tentative === 'rose' : by > 0);
        when('fell', reasons ? reasons.tentative === 'fell' : by < 0);
        when('waits', reasons?.tentative === 'waited');
        when('replaced', reasons?.replacement === 'yes');
        const levels = [1, 2, 3];
        when('maximum', reasons
            ? levels.some((level) => reasons[`level${level}`] === 'maximum')
            : statics !== null && levels.some((level) => day.record[`s${level}`] === statics.smax));
        when('hidden', hidden.includes(days.length - 1));
    }
    when('moved', record !== null && record.movesUpper + record.movesLower > 0);
    return happened;
}

/**
 * A security with its days and what happened to it. What a line brings is kept as it was answered, and opened when it
 * is looked at: of a year of days few are.
 */
export class Security {
    #latest = null;
    #record = null;
    #happened = null;
    #hidden = [];
    #looked = 0;

    constructor(/** @type {number} */ id, /** @type {Object<string, number>|null} */ statics) {
        this.id = id;
        /** By the names of an admission; null where no message brought them. */
        this.statics = statics;
        /** @type {any[]} One for each accepted evaluation, oldest first; `dayAt` opens one. */
        this.days = [];
    }

    /** The latest record is the answer to a call, or a record that messages made. */
    heard(latest) {
        this.#latest = latest;
        this.#record = null;
        this.#happened = null;
    }

    /** The latest record; null before the first one. */
    get record() {
        if (this.#latest === null) return null;
        this.#record ??= this.#latest.record ?? answerOf(this.#latest.call, this.#latest.answer);
        return this.#record;
    }

    /** Which of its days had a move that rounding first would have hidden. */
    get hidden() {
        for (; this.#looked < this.days.length; this.#looked += 1) {
            if (isHidden(this, this.#looked)) this.#hidden.push(this.#looked);
        }
        return this.#hidden;
    }

    /** What happened to it on its last day: the keys of HAPPENED. */
    get happened() {
        this.#happened ??= happenedTo(this);
        return this.#happened;
    }
}

/**
 * @typedef {object} Whole  What a broadcast says of itself.
 * @property {boolean} is  Whether it is one whole stream, from its begin to its end.
 * @property {number} begins  How many streams begin in it.
 * @property {number} ends  How many of them end.
 * @property {number|null} day  The last day of its messages; null where none has a day.
 */

/**
 * @typedef {object} Sheet
 * @property {'evening'|'broadcast'} source
 * @property {Security[]} securities in the order of their admissions, or of their first messages
 * @property {{ line: number, text: string }[]} headings of an evening's text
 * @property {object[]} refusals the lines that were refused, with their words and places
 * @property {object[]} unknown messages of other kinds
 * @property {object|null} damage where a broadcast cannot be read on
 * @property {Whole|null} whole whether a broadcast is whole; null of an evening's text
 * @property {number} lines how many had an answer, or were read
 */

/** @returns {Sheet} */
export const emptySheet = (/** @type {'evening'|'broadcast'} */ source) => (
    { source, securities: [], headings: [], refusals: [], unknown: [], damage: null, whole: null, lines: 0 });
