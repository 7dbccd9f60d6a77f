// One security: its figures, its ranges and bands, why, and its days. A day before the last can be chosen.
import { answerOf } from './answers.mjs';
import { el, table } from './element.mjs';
import { placesOf } from './figures.mjs';
import { COLUMNS } from './columns.mjs';
import { dayAt } from './security.mjs';
import { daysChart } from './view-days.mjs';
import { ladder } from './view-ladder.mjs';
import { badges, sessionOf } from './view-table.mjs';
import { whyOf } from './view-why.mjs';

const LEAST_WIDTH = 260;

/** The records of days that were drawn already: a year of them is read once, and not at each line that is said. */
const read = new WeakMap();

function recordOf(day) {
    if (day.record !== undefined) return day.record;
    if (!read.has(day)) read.set(day, answerOf('evaluate', day.answer));
    return read.get(day);
}

/** The statics, with their names, and how each is shown. */
const STATICS = [
    ['lot', 'pieces of a lot', 'whole'], ['h', 'step of the rates (h)', 'perCent'],
    ['q', 'multiplier (q)', 'hundredths'], ['aUp', 'upward weight', 'perCent'], ['aDown', 'downward weight', 'perCent'],
    ['wait', 'wait, trading days', 'whole'],
    ['rh1', 'horizon of level 1, days', 'whole'], ['rh2', 'horizon of level 2, days', 'whole'],
    ['rh3', 'horizon of level 3, days', 'whole'], ['liq', 'liquidity rate', 'perCent'],
    ['min1', 'minimum of rate 1', 'perCent'], ['min2', 'minimum of rate 2', 'perCent'],
    ['min3', 'minimum of rate 3', 'perCent'], ['smax', 'maximum of the rates', 'perCent'],
    ['xpr', 'divisor of the band (x_pr)', 'hundredths'], ['shift', 'shift of a move', 'hundredths'],
    ['pchmax', 'farthest upper band limit', 'perCent'], ['pclmax', 'farthest lower band limit', 'perCent'],
    ['w', 'nearness to a limit (w)', 'perCent'], ['u', 'seconds to an alert', 'whole'],
    ['uevening', 'seconds to an alert in the evening', 'whole'], ['monitoring', 'monitored', 'yes'],
    ['isewma', 'modelled (isEWMA)', 'yes'], ['autochange', 'moves in the evening', 'yes'],
    ['eveningmax', 'most moves of an evening', 'whole'], ['useexternal', 'outside prices used', 'yes'],
];

/** A second of the day as a time. */
export function timeOf(second) {
    const two = (number) => String(number).padStart(2, '0');
    return `${two(Math.floor(second / 3600))}:${two(Math.floor(second / 60) % 60)}:${two(second % 60)}`;
}

const nearSince = (second) => (second === undefined ? '–' : second < 0 ? 'no' : `since ${timeOf(second)}`);

/** An outside price; a broadcast has none. */
export function outsideOf(units, figures) {
    return units === undefined ? '–' : units === 0 ? 'none' : figures.roubles(units);
}

/** The evaluation, large, with its change. */
export function priceOf(record, figures) {
    const away = record.p2 ? Math.sign(record.p1 - record.p2) : 0;
    return el('p', { class: 'big' }, `${figures.roubles(record.p1)} `, el('small', { class: 'dim' }, 'roubles '),
        el('small', { class: away > 0 ? 'up' : away < 0 ? 'down' : 'dim' }, figures.change(record.p1, record.p2)));
}

/** The rates, the tentative rate and the volatility of a record. */
export function cards(record, figures) {
    const card = (name, figure, small = '') =>
        el('div', {}, el('dt', {}, name), el('dd', {}, figure, small && el('div', { class: 'small dim' }, small)));
    return el('dl', { class: 'cards' },
        ...[1, 2, 3].map((level) => card(`rate ${level}`, figures.perCent(record[`s${level}`]))),
        card('tentative', figures.perCent(record.tentative),
            `for ${figures.whole(record.age)} ${record.age === 1 ? 'day' : 'days'}`),
        card('volatility', figures.volatility(record.s), `${figures.whole(record.s)} millionths`));
}

/** The ranges and the bands of a record, as tables. */
export function limitsOf(record, figures) {
    const prices = COLUMNS.filter((column) => column.as === 'price').map((column) => record[column.key] ?? 0);
    const places = placesOf(prices);
    const roubles = (units) => figures.roubles(units, places);
    const ranges = [1, 2, 3].map((level) =>
        [String(level), roubles(record[`lower${level}`]), roubles(record[`upper${level}`])]);
    const bands = [0, 1, 2].map((term) => {
        const of = (name) => record[`${name}_${term}`];
        return [figures.whole(of('k')), `${figures.hundredths(of('rrcl'))} to ${figures.hundredths(of('rrch'))}`,
            roubles(of('lower')), roubles(of('upper'))];
    });
    return el('div', { class: 'two' },
        el('div', { class: 'scroll' },
            table('Ranges, in roubles', ['level', 'lower', 'upper'], ranges, { isCaptionShown: true })),
        el('div', { class: 'scroll' },
            table('Bands, in roubles', ['days', 'repo, %', 'lower', 'upper'], bands, { isCaptionShown: true })));
}

function todayOf(record, figures) {
    const isHeard = record.lastSecond === undefined;
    const rows = [
        ['Session', sessionOf(record.session)],
        ['Moves since the evaluation, upper', figures.whole(record.movesUpper)],
        ['Moves since the evaluation, lower', figures.whole(record.movesLower)],
        ['Moves in the evening session', isHeard ? '–' : figures.whole(record.eveningMoves)],
        ['Second of the last quote', isHeard ? '–' : timeOf(record.lastSecond)],
        ...[0, 1, 2].map((term) => [
            `Quotes near the limits of term ${term}`,
            `top ${nearSince(record[`nearTop_${term}`])}, bottom ${nearSince(record[`nearBottom_${term}`])}`,
        ]),
        ['Outside bid and ask', `${outsideOf(record.extBid, figures)}, ${outsideOf(record.extAsk, figures)}`],
    ];
    return el('details', {}, el('summary', {}, 'Session, moves and quotes'),
        el('div', { class: 'scroll' }, table('Session, moves and quotes', [{ words: 'what' }, 'figure'],
            rows.map(([name, figure]) => [{ words: name }, figure]))));
}

function staticsOf(statics, figures) {
    if (statics === null) return el('p', { class: 'dim' }, 'No message brought the statics of this security.');
    const shown = { yes: (flag) => (flag === 1 ? 'yes' : 'no'), ...figures };
    return el('details', {}, el('summary', {}, 'Statics'),
        el('div', { class: 'scroll' }, table('Statics', [{ words: 'what' }, 'figure'],
            STATICS.map(([key, name, as]) => [{ words: name }, shown[as](statics[key])]))));
}

/** The days as a table; it is made when it is opened. */
function daysTable(security, figures) {
    const details = el('details', {}, el('summary', {}, 'Days as a table'));
    details.addEventListener('toggle', () => {
        if (details.childElementCount > 1) return;
        const rows = security.days.map((day, at) => {
            const record = recordOf(day);
            const mark = security.hidden.includes(at) ? '◆ ' : '';
            return [`${mark}${figures.whole(record.day)}`, figures.roubles(record.p1),
                figures.change(record.p1, record.p2), figures.volatility(record.s), figures.perCent(record.tentative),
                ...[1, 2, 3].map((level) => figures.perCent(record[`s${level}`]))];
        }).reverse();
        const head = ['day', 'evaluation', 'change', 'volatility', 'tentative', 'rate 1', 'rate 2', 'rate 3'];
        details.append(el('div', { class: 'scroll' }, table('Days, the latest first', head, rows)));
    });
    return details;
}

let widthBefore = 0;

/** A drawing that is made anew when its room gets another width; it begins with that of the drawing before it. */
function drawn(draw) {
    let width = widthBefore;
    const room = el('div', {}, width > 0 && draw(width));
    new ResizeObserver(() => requestAnimationFrame(() => {
        const now = Math.max(LEAST_WIDTH, Math.floor(room.clientWidth));
        if (now === width || !room.isConnected) return;
        width = now;
        widthBefore = now;
        room.replaceChildren(draw(width));
    })).observe(room);
    return room;
}

function dayChooser(records, hidden, at, figures, show) {
    const step = (by, words) => el('button', {
        type: 'button', 'aria-label': words, disabled: records[at + by] === undefined,
        onclick: () => show(at + by, words),
    }, by < 0 ? '‹' : '›');
    const option = ({ day }, which) => el('option', { value: which, selected: which === at },
        `${hidden.includes(which) ? '◆ ' : ''}day ${figures.whole(day)}`);
    const chosen = (event) => show(Number(event.target.value), 'Day');
    return el('div', { class: 'days' },
        step(-1, 'the day before'),
        el('select', { 'aria-label': 'Day', onchange: chosen }, ...records.map(option)),
        step(1, 'the next day'));
}

function legend(...keys) {
    const one = ([key, words]) => el('span', {}, el('span', { class: `key ${key}` }), words);
    return el('p', { class: 'legend' }, ...keys.map(one));
}

/** Shows a security in a room, at its last day or another. */
export function showSecurity(room, security, figures, at = security.days.length - 1) {
    const head = (...more) => el('div', { class: 'head' }, el('h2', {}, `Security ${security.id}`), ...more);
    if (security.record === null || at < 0) {
        room.replaceChildren(head(), el('p', { class: 'dim' }, 'It is admitted, and not evaluated yet.'),
            staticsOf(security.statics, figures));
        return;
    }
    const isLast = at === security.days.length - 1;
    const records = security.days.map(recordOf);
    const record = isLast ? security.record : records[at];
    const show = (which, name) => {
        showSecurity(room, security, figures, which);
        room.querySelector(`[aria-label="${name}"]`)?.focus();
    };
    room.replaceChildren(
        head(...(isLast ? badges(security) : []), dayChooser(records, security.hidden, at, figures, show)),
        priceOf(record, figures),
        cards(record, figures),
        el('h3', {}, `Why, on day ${figures.whole(record.day)}`),
        ...whyOf(dayAt(security, at), figures),
        el('h3', {}, isLast ? 'Ranges and bands' : 'Ranges and bands, as evaluated'),
        drawn((width) => ladder(record, figures, width)),
        legend(['k1', 'level 1'], ['k2', 'level 2'], ['k3', 'level 3'], ['kb', 'band of a term, in days']),
        limitsOf(record, figures),
        el('h3', {}, 'Days'),
        drawn((width) => daysChart(records, figures, { width, hidden: security.hidden, at })),
        legend(['kp', 'evaluation'], ['kb', 'band of the first term; volatility'],
            ['k1', 'rate 1'], ['k2', 'rate 2'], ['k3', 'rate 3']),
        daysTable(security, figures),
        ...(isLast ? [todayOf(record, figures)] : []),
        staticsOf(security.statics, figures),
    );
}
