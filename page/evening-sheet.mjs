// The sheet of an evening: the securities of its text, with what the programs answered to each line.
import { RECORD_CALLS, admissionOf, answerOf } from './answers.mjs';
import { placeOf } from './places.mjs';
import { inWords, refusedOf } from './refusals.mjs';
import { Security, emptySheet } from './security.mjs';

const LONGEST_LINE = 65535; // a longer line is answered, even a blank one and a heading

/**
 * @typedef {object} Line  A line of an evening's text with what the programs answered.
 * @property {{number: number, text: string}} line
 * @property {string} answer of `evening`
 * @property {string} why of `why`
 */

/** Whether a line of an evening's text has an answer: a line with no word says nothing, and neither does a heading. */
export function isAnswered(line) {
    return line.length > LONGEST_LINE || /^[ \t\r]*[^ \t\r#]/.test(line);
}

/** Whether a line is a heading: its first word begins with '#'. */
export function isHeading(line) {
    return line.length <= LONGEST_LINE && /^[ \t\r]*#/.test(line);
}

/** What a heading says to a reader. */
export const headingIn = (line) => line.replace(/^[ \t\r]*#+/, '').trim();

/** The lines of an evening's text, with their numbers. */
function numberedLines(text) {
    const lines = text.split('\n');
    if (lines.at(-1) === '') lines.pop();
    return lines.map((line, at) => ({ number: at + 1, text: line }));
}

/** Those that have an answer. */
export const answeredLines = (text) => numberedLines(text).filter((line) => isAnswered(line.text));

/** The first word of a line, which is the call's; '' where there is none. */
export const firstWord = (line) => /[^ \t\r]+/.exec(line)?.[0] ?? '';

/** The sheet of an evening, which hears a line more at a time and can forget its last ones. */
export function makeEveningSheet() {
    const sheet = emptySheet('evening');
    const byId = new Map();
    /** @type {Line[]} The accepted interest lines, which evaluations of any security may look at. */
    const interests = [];

    /** Which security a line that was accepted is of; undefined for an interest or a bond line. */
    function idOf({ line }) {
        const [, call, word] = /([^ \t\r]+)(?:[ \t\r]+([^ \t\r]+))?/.exec(line.text) ?? [];
        return call === 'interest' || call === 'bond' ? undefined : Number(word);
    }

    /** Accepted lines of a security; its admission is the first of them. */
    function hearOwn(own, /** @type {Line} */ heard) {
        const call = firstWord(heard.line.text);
        if (call === 'admit') own.security = new Security(own.id, admissionOf(heard.line.text));
        own.lines.push(heard);
        if (call === 'evaluate') own.security.days.push(heard);
        if (RECORD_CALLS.has(call)) own.security.heard({ call, answer: heard.answer });
    }

    /** @param {Line} heard */
    function hear(heard) {
        sheet.lines += 1;
        if (!heard.answer.startsWith('0')) {
            sheet.refusals.push(refusalOf(heard));
            return;
        }
        const id = idOf(heard);
        if (firstWord(heard.line.text) === 'interest') interests.push(heard);
        if (id === undefined) return;
        if (!byId.has(id)) byId.set(id, { id, security: null, lines: [] });
        const own = byId.get(id);
        hearOwn(own, heard);
        if (own.lines.length === 1) sheet.securities.push(own.security);
    }

    /** A line of the text that has no answer; only a heading is shown. */
    function pass(/** @type {Line} */ { line }) {
        if (isHeading(line.text)) sheet.headings.push({ line: line.number, text: headingIn(line.text) });
    }

    /** The security as it was at its first lines, in the place that it has. */
    function cutTo(own, count) {
        const place = sheet.securities.indexOf(own.security);
        const lines = own.lines.slice(0, count);
        own.lines = [];
        lines.forEach((heard) => hearOwn(own, heard));
        if (count === 0) byId.delete(own.id);
        sheet.securities.splice(place, 1, ...(count === 0 ? [] : [own.security]));
    }

    return {
        sheet,
        hear,
        pass,
        interests,
        /**
         * The accepted lines of a security, its admission first.
         * @param {number} id
         * @returns {Line[]}
         */
        linesOf: (id) => byId.get(id)?.lines ?? [],
        /**
         * @param {number} id
         * @returns {Security | null}
         */
        securityOf: (id) => byId.get(id)?.security ?? null,
        /** Takes back the last lines that were heard, which are in the order of the text. */
        forget(/** @type {Line[]} */ last) {
            const left = new Map();
            for (const heard of last) {
                if (!isAnswered(heard.line.text)) {
                    if (isHeading(heard.line.text)) sheet.headings.pop();
                    continue;
                }
                sheet.lines -= 1;
                if (!heard.answer.startsWith('0')) {
                    sheet.refusals.pop();
                } else if (firstWord(heard.line.text) === 'interest') {
                    interests.pop();
                } else if (byId.has(idOf(heard))) {
                    const own = byId.get(idOf(heard));
                    left.set(own, (left.get(own) ?? own.lines.length) - 1);
                }
            }
            for (const [own, count] of left) cutTo(own, count);
        },
    };
}

/**
 * The sheet of an evening's text.
 * @param {string} text a character a byte
 * @param {string[]} answers the lines of `evening`
 * @param {string[]} whys the lines of `why`
 */
export function sheetOfEvening(text, answers, whys) {
    const { sheet, hear, pass } = makeEveningSheet();
    let at = 0;
    for (const line of numberedLines(text)) {
        if (isAnswered(line.text)) {
            hear({ line, answer: answers[at] ?? '', why: whys[at] ?? '' });
            at += 1;
        } else {
            pass({ line, answer: '', why: '' });
        }
    }
    if (at !== answers.length || at !== whys.length) {
        throw new Error(`${at} lines have ${answers.length} answers and ${whys.length} reasons`);
    }
    return sheet;
}

/** A refused line, with its number, its words and the place that `why` names. */
function refusalOf(/** @type {Line} */ { line, answer, why }) {
    const { kind, number } = answerOf(firstWord(line.text), answer);
    const at = { line: line.number, text: line.text, answer, why };
    if (kind === 'bad') return { ...at, number: null, words: 'the line is no call', place: '' };
    return { ...at, number, words: inWords(number), place: placeOf(refusedOf(why) ?? {}) };
}
