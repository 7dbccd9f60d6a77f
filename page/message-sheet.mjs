// The sheet of a broadcast: the securities of its messages, and whether it is whole, as the program `listen` printed
// them.
import { heardOf } from './answers.mjs';
import { inWords } from './refusals.mjs';
import { Security, emptySheet } from './security.mjs';

/** @typedef {import('./security.mjs').Whole} Whole */

/**
 * The sheet of a broadcast.
 * @param {string[]} heard the lines of `listen`
 */
export function sheetOfMessages(heard) {
    const sheet = emptySheet('broadcast');
    const lines = heard.map(heardOf);
    const byId = new Map();
    const found = (id) => {
        if (!byId.has(id)) {
            byId.set(id, new Security(id, null));
            sheet.securities.push(byId.get(id));
        }
        return byId.get(id);
    };
    let isOpen = false;
    for (const message of lines) {
        if (message.kind === 'unended') {
            // It says something of the messages before it, and is none itself.
            continue;
        }
        sheet.lines += 1;
        if (message.kind === 'refused') {
            sheet.damage = { ...message, words: inWords(message.number), message: sheet.lines };
            sheet.lines -= 1;
        } else if (message.kind === 'unknown') {
            sheet.unknown.push({ ...message, message: sheet.lines });
        } else if (message.kind === 'begin' || message.kind === 'end') {
            isOpen = message.kind === 'begin';
        } else {
            hearMessage(found(message.id), message, isOpen);
        }
    }
    sheet.whole = wholeOf(lines);
    return sheet;
}

/**
 * Whether the lines of `listen` are those of one whole stream: `begin`, messages and `end`, and nothing else. `listen`
 * judges the `end` itself, and refuses one that is not that of its stream.
 * @returns {Whole}
 */
function wholeOf(lines) {
    const count = (kind) => lines.filter((line) => line.kind === kind).length;
    const [begins, ends] = [count('begin'), count('end')];
    const is = begins === 1 && ends === 1 && lines[0].kind === 'begin' && lines.at(-1).kind === 'end';
    const dated = lines.filter((line) => line.day !== undefined);
    return { is, begins, ends, day: dated.reduce((last, { day }) => Math.max(last ?? 0, day), null) };
}

/**
 * What a message changes. A day begins with its rates; the bands, the reasons and the session behind them are of the
 * same day. A stream that begins tells openings, so its rates are of the main session.
 */
function hearMessage(security, message, tellsOpenings) {
    const { kind, id, ...fields } = message;
    const last = security.days.at(-1);
    if (kind === 'statics') {
        security.statics = fields;
    } else if (kind === 'rates') {
        const { p, ...figures } = fields;
        const before = last?.record.p1 ?? null;
        const begun = { movesUpper: 0, movesLower: 0, ...(tellsOpenings ? { session: 0 } : {}) };
        const day = { record: { id, live: 1, p1: p, p2: before, ...begun, ...figures } };
        security.days.push(day);
        security.heard({ record: { ...day.record } });
    } else if (last === undefined) {
        // Bands, reasons, a session or a move with no rates before them: there is no day that they could be of.
        return;
    } else if (kind === 'move') {
        const side = message.side === 0 ? 'upper' : 'lower';
        const record = { ...security.record };
        record[message.side === 0 ? 'movesUpper' : 'movesLower'] = message.count;
        for (const level of [1, 2, 3]) record[`${side}${level}`] = message[`range${level}`];
        for (const term of [0, 1, 2]) record[`${side}_${term}`] = message[`band${term}`];
        security.heard({ record });
    } else if (fields.day !== last.record.day) {
        return;
    } else if (kind === 'bands') {
        Object.assign(last.record, fields);
        security.heard({ record: { ...security.record, ...fields } });
    } else if (kind === 'reasons') {
        const { day, ...reasons } = fields;
        last.reasons = { kind, ...reasons };
        security.heard({ record: { ...security.record } });
    } else {
        security.heard({ record: { ...security.record, session: 1 } });
    }
}
