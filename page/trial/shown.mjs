// Every figure that the page shows, against the answers of `evening` and `why`: those of the tables and the sentences
// by their places in the answer (docs/EVENING.md, "The answers" and "Why"), all others of a security among the numbers
// that stand in its lines and answers. Places and units are written here once more, and nothing is taken from the
// page's own lists.
import assert from 'node:assert/strict';

const RECORD_WORDS = 46;
const PLACES = {
    id: 1, day: 3, p1: 4, s: 6, tentative: 7, s1: 9, s2: 10, s3: 11,
    upper1: 12, upper2: 13, upper3: 14, lower1: 15, lower2: 16, lower3: 17,
    k_0: 18, lower_0: 21, upper_0: 22, k_1: 25, lower_1: 28, upper_1: 29, k_2: 32, lower_2: 35, upper_2: 36,
    movesUpper: 39, movesLower: 40,
};
const DECIMALS = { s: 4, s1: 2, s2: 2, s3: 2, tentative: 2 };
const SESSIONS = ['main', 'evening'];
const decimalsOf = (/** @type {string} */ key) => DECIMALS[key] ?? (/^(p1|upper|lower)/.test(key) ? 4 : 0);

/** A shown figure as the whole number of its unit: the point moved back. It has no more decimals than the unit. */
export function wholeOf(/** @type {string} */ shown, /** @type {number} */ decimals) {
    const [whole, behind = ''] = shown.replace(/[ ,%]/g, '').replace('−', '-').split('.');
    return behind.length > decimals ? null : String(BigInt(`${whole}${behind.padEnd(decimals, '0')}`));
}

/**
 * What the lines and their answers say of each security, in order: its admission and its records, an evaluation with
 * the figures that `why` says (R S0 X Y S T) where it says some.
 * @typedef {{ call: string, line: string[], answer: string[], figures: string[] }} Told
 * @returns {Map<string, Told[]>}
 */
export function toldOf(/** @type {string[]} */ lines, /** @type {string[]} */ answers,
    /** @type {string[]} */ whys = []) {
    const told = new Map();
    // A blank line and a heading are not answered, unless they are too long.
    const answered = lines.filter((line) => line.length > 65535 || /^[ \t\r]*[^ \t\r#]/.test(line));
    assert.equal(answered.length, answers.length);
    answered.forEach((text, at) => {
        const line = text.split(/[ \t\r]+/).filter((word) => word !== '');
        const answer = answers[at].split(' ');
        if (answer[0] !== '0') return;
        const plain = line.map((word) => (/^-?\d+$/.test(word) ? String(BigInt(word)) : word)); // 007 is 7
        const figures = / figures (.*)$/.exec(whys[at] ?? '')?.[1].split(' ') ?? [];
        const one = { call: line[0], line: plain, answer, figures };
        if (one.call === 'admit') told.set(one.line[1], [one]);
        else if (answer.length === RECORD_WORDS) told.get(answer[1]).push(one);
    });
    return told;
}

/** The table as it is shown: for each security the cells by the keys of their heads. */
export const TABLE = `(() => {
    const keys = [...document.querySelectorAll('#table thead button')].map((one) => one.dataset.key);
    return [...document.querySelectorAll('#table tbody tr')].map((row) =>
        Object.fromEntries([...row.children].map((cell, at) => [keys[at], cell.textContent])));
})()`;

/** Compares the whole table, and says how many figures it has. */
export function lookAtTable(/** @type {Record<string, string>[]} */ rows, /** @type {Map<string, Told[]>} */ told) {
    let looked = 0;
    assert.deepEqual(rows.map(({ id }) => id).sort(), [...told.keys()].sort());
    for (const row of rows) {
        const words = /** @type {Told[]} */ (told.get(row.id)).at(-1).answer;
        const isLive = words.length === RECORD_WORDS && words[2] === '1';
        for (const [key, place] of Object.entries(PLACES).filter(([name]) => name !== 'id')) {
            assert.ok(key in row, `the table has no column ${key}`);
            const expected = isLive ? words[place] : null;
            const shown = row[key] === '–' ? null : wholeOf(row[key], decimalsOf(key));
            assert.equal(shown, expected, `security ${row.id}, ${key}: '${row[key]}'`);
            if (isLive) assert.equal(row[key].endsWith(' %'), key in DECIMALS, `security ${row.id}, ${key}: its unit`);
            looked += 1;
        }
        if (isLive) assert.equal(row.session, SESSIONS[Number(words[42])]);
    }
    return looked;
}

/** The pieces of text in a room, each with what it stands in. */
const PIECES = `(room) => {
    const pieces = [];
    const texts = document.createTreeWalker(room, NodeFilter.SHOW_TEXT);
    while (texts.nextNode()) {
        const { parentElement, data } = texts.currentNode;
        const cell = parentElement.closest('td');
        const head = cell?.closest('table').querySelectorAll('thead th')[cell.cellIndex]?.textContent ?? '';
        const where = parentElement.closest('svg') ? 'drawing' : cell ? head : parentElement.localName;
        pieces.push({ text: data, where: where + ' ' + (parentElement.getAttribute('class') ?? '') });
    }
    return pieces;
}`;

// What one security shows; drawings and tables that come later are waited for.
const ALL_OF = (/** @type {string[]} */ ids) => `(async () => {
    const frame = () => new Promise((done) => requestAnimationFrame(() => setTimeout(done)));
    const shown = [];
    for (const id of ${JSON.stringify(ids)}) {
        document.querySelector('#table tbody button[data-id="' + id + '"]').click();
        const room = document.getElementById('one');
        for (const closed of room.querySelectorAll('details')) closed.open = true;
        await frame();
        const pieces = (${PIECES})(room);
        const nameOf = (one) => one.caption?.textContent ?? one.getAttribute('aria-label');
        const rowsOf = (one) => [...one.tBodies[0].rows].map((row) => [...row.cells].map((cell) => cell.textContent));
        const tables = Object.fromEntries([...room.querySelectorAll('table')].map((one) => [nameOf(one), rowsOf(one)]));
        const cards = [...room.querySelectorAll('.cards > div')].map((one) => (
            [one.querySelector('dt').textContent, one.querySelector('dd').firstChild.data]));
        shown.push({ id, pieces, tables, cards, price: room.querySelector('.big')?.firstChild.data });
    }
    return shown;
})()`;

const FIGURE = /[−-]?\d[\d,]*(?:\.\d+)?/g;
const UNITS = [0, 2, 4]; // a whole number, a rate or hundredths, a price or a volatility

/** Whether a shown figure is one of the numbers, with the point moved. */
const isAmong = (/** @type {string} */ shown, /** @type {Set<string>} */ numbers) => (
    UNITS.some((decimals) => numbers.has(String(wholeOf(shown, decimals)))));

/** The exact move in millionths, as two numbers over and under; the greater of the two (document 01, 7.1). */
function moveOf(/** @type {bigint} */ price, /** @type {bigint[]} */ earlier) {
    const moves = earlier.map((from) => [(price > from ? price - from : from - price) * 1_000_000n, from]);
    return moves[0][0] * moves[1][1] >= moves[1][0] * moves[0][1] ? moves[0] : moves[1];
}

/** The figures that the page makes itself, each worked out here in another way; what is left of a text has none. */
function withoutMade(/** @type {string} */ text, /** @type {bigint[]} */ [over, under]) {
    const whole = (/** @type {string | undefined} */ shown) => BigInt((shown ?? '0').replace(/,/g, ''));
    return text
        .replace(/ is (?:([\d,]+) \+ )?(?:([\d,]+)\/)?([\d,]+) millionths(?: \(([\d,]+)(?:\.(\d+))?…?\))?/,
            (_, before, part, last, places, behind = '') => {
                const [count, of] = part === undefined ? [whole(last), 1n] : [whole(part), whole(last)];
                assert.equal((whole(before) * of + count) * under, over * of, text);
                const shown = places === undefined ? null : BigInt(places.replace(/,/g, '') + behind.padEnd(3, '0'));
                if (shown !== null) assert.equal(shown, (over * 1000n) / under, text);
                return ' is';
            })
        .replace(/(nearest millionth first it would have been) ([\d,]+)/, (_, words, shown) => {
            assert.equal(whole(shown), (2n * over + under) / (2n * under), text);
            return words;
        });
}

/** The numbers of a security that the page may show, and the exact move of its last day. */
function numbersOf(/** @type {Told[]} */ told) {
    const numbers = new Set(told.flatMap(({ call, line, answer }) => [
        ...(call === 'admit' ? line : call === 'evaluate' ? line.slice(3, 5) : []), ...answer]));
    const days = told.filter(({ call }) => call === 'evaluate');
    if (days.length === 0) return { numbers, move: [0n, 1n] };
    days[days.length - 1].figures.forEach((figure) => numbers.add(figure));
    const before = days.length > 1 ? days[days.length - 2].answer.slice(4, 6) : told[0].line.slice(3, 5);
    return { numbers, move: moveOf(BigInt(days[days.length - 1].answer[4]), before.map(BigInt)) };
}

/** The places of what one security shows in tables and cards: those of its last record, and of each of its days. */
function expectedOf(/** @type {Told[]} */ told) {
    const last = told[told.length - 1].answer;
    const [r, s0, x, y, s, t] = told.findLast(({ call }) => call === 'evaluate').figures;
    const dayOf = (/** @type {string[]} */ w) => [w[3], w[4], w[6], w[7], w[9], w[10], w[11]];
    return {
        price: last[4],
        cards: [last[9], last[10], last[11], last[7], last[6]],
        ranges: [0, 1, 2].map((level) => [String(level + 1), last[15 + level], last[12 + level]]),
        bands: [0, 1, 2].map((term) => [0, 1, 2, 3, 4].map((place) => last[18 + 7 * term + place])),
        days: told.filter(({ call }) => call === 'evaluate').map(({ answer }) => dayOf(answer)).reverse(),
        deciding: r === undefined ? [] : [
            ['Move', r, `${r} millionths`], ['Volatility before', s0, `${s0} millionths`],
            ['Root of the weighted mean', x, `${x} millionths`],
            ['Replacement', y === '0' ? 'none' : y, y === '0' ? '0' : `${y} millionths`],
            ['Volatility now', s, `${s} millionths`], ['Least step that covers it', t, `${t} basis points`],
        ],
    };
}

/** What the sentences say of R, S0, X, Y, S and T, by their places among those figures, with their decimals. */
const SAID = /** @type {[RegExp, number, number][]} */ ([
    [/^The price moved by ([\d.]+) %/, 0, 4], [/(?:is|is not) above the volatility before, ([\d.]+) %/, 1, 4],
    [/, above ([\d.]+) %, the root of/, 2, 4], [/^The volatility is now ([\d.]+) %, the root of/, 2, 4],
    [/over the multiplier of [\d.]+,? is ([\d.]+) %/, 3, 4], [/^The volatility (?:is now|stays at) ([\d.]+) %/, 4, 4],
    [/ is ([\d,]+) basis points/, 5, 0], [/ basis points, ([\d,.]+) %/, 5, 2],
]);
const SAID_LEAST = 3; // S, and T twice, stand in every day's sentences

/** Every figure that a sentence names is the one that `why` has at its place. */
function lookAtSentences(/** @type {{ text: string, where: string }[]} */ pieces, /** @type {string[]} */ figures,
    /** @type {string} */ whose) {
    let looked = 0;
    for (const { text } of pieces.filter(({ where }) => where.startsWith('li'))) {
        for (const [pattern, place, decimals] of SAID) {
            const shown = pattern.exec(text)?.[1];
            if (shown === undefined) continue;
            assert.equal(wholeOf(shown, decimals), figures[place], `${whose}: '${text}'`);
            looked += 1;
        }
    }
    assert.ok(figures.length === 0 ? looked === 0 : looked >= SAID_LEAST, `${whose} has ${looked} figures of why`);
    return looked;
}

/** The statics by the names that the page gives them: their place in an admission's line, decimals and unit. */
const STATICS = /** @type {Record<string, [number, number, string]>} */ ({
    'pieces of a lot': [7, 0, ''], 'step of the rates (h)': [8, 2, ' %'], 'multiplier (q)': [9, 2, ''],
    'upward weight': [10, 2, ' %'], 'downward weight': [11, 2, ' %'], 'wait, trading days': [12, 0, ''],
    'horizon of level 1, days': [13, 0, ''], 'horizon of level 2, days': [14, 0, ''],
    'horizon of level 3, days': [15, 0, ''], 'liquidity rate': [16, 2, ' %'], 'minimum of rate 1': [17, 2, ' %'],
    'minimum of rate 2': [18, 2, ' %'], 'minimum of rate 3': [19, 2, ' %'], 'maximum of the rates': [20, 2, ' %'],
    'divisor of the band (x_pr)': [21, 2, ''], 'shift of a move': [22, 2, ''],
    'farthest upper band limit': [23, 2, ' %'], 'farthest lower band limit': [24, 2, ' %'],
    'nearness to a limit (w)': [25, 2, ' %'], 'seconds to an alert': [26, 0, ''],
    'seconds to an alert in the evening': [29, 0, ''], 'most moves of an evening': [31, 0, ''],
});
const ANSWERED_YES = { monitored: 27, 'modelled (isEWMA)': 28, 'moves in the evening': 30, 'outside prices used': 32 };

/** Every static has its own figure, with its unit. */
function lookAtStatics(/** @type {string[][]} */ rows, /** @type {string[]} */ line) {
    assert.equal(rows.length, line.length - 7, 'the statics are not all there');
    for (const [name, shown] of rows) {
        const place = ANSWERED_YES[/** @type {keyof typeof ANSWERED_YES} */ (name)];
        if (place !== undefined) {
            assert.equal(shown, line[place] === '1' ? 'yes' : 'no', name);
        } else {
            const [word, decimals, unit] = STATICS[name];
            assert.equal(wholeOf(shown, decimals), line[word], name);
            assert.equal(/ %$/.exec(shown)?.[0] ?? '', unit, name);
        }
    }
}

/** The same as it is shown. */
function placedOf(/** @type {any} */ { price, cards, tables }) {
    const each = (/** @type {string[]} */ cells, /** @type {number[]} */ decimals) => (
        cells.map((cell, place) => wholeOf(cell.replace('◆ ', ''), decimals[place])));
    const rows = (/** @type {string} */ name, /** @type {number[]} */ decimals) => (
        tables[name].map((/** @type {string[]} */ cells) => each(cells, decimals)));
    const bands = tables['Bands, in roubles'].map((/** @type {string[]} */ [days, repo, lower, upper]) => (
        each([days, ...repo.split(' to '), lower, upper], [0, 2, 2, 4, 4])));
    const withoutChange = tables['Days, the latest first']
        .map((/** @type {string[]} */ cells) => cells.filter((_, place) => place !== 2));
    assert.deepEqual(cards.map((/** @type {string[]} */ [name]) => name),
        ['rate 1', 'rate 2', 'rate 3', 'tentative', 'volatility']);
    const deciding = (tables['The figures that decided'] ?? []).map((/** @type {string[]} */ [name, shown, own]) => (
        [name, shown === 'none' ? shown : wholeOf(shown, name.startsWith('Least') ? 2 : 4), own.replace(/,/g, '')]));
    return {
        price: wholeOf(price, 4),
        cards: each(cards.map((/** @type {string[]} */ [, figure]) => figure), [2, 2, 2, 2, 4]),
        ranges: rows('Ranges, in roubles', [0, 4, 4]),
        bands,
        days: withoutChange.map((/** @type {string[]} */ cells) => each(cells, [0, 4, 4, 2, 2, 2, 2])),
        deciding,
    };
}

const isChange = (/** @type {{ text: string, where: string }} */ { text, where }) => (
    where.startsWith('change') || (/^small (up|down|dim)$/.test(where) && text.includes('%')));
const TIME = /\d\d:\d\d:\d\d/g;
const NAME = /\b(?:rates?|levels?|terms?) [0-3](?:, [0-3](?![\d.]))*\b/gi; // a level's or a term's number is a name

/**
 * Every figure of some pieces stands among the numbers, but for what the page makes itself of a move.
 * @param {{ text: string, where: string }[]} pieces
 * @param {Set<string>} numbers
 * @param {bigint[]} move
 * @param {string} whose
 */
function lookAtPieces(pieces, numbers, move, whose) {
    let looked = 0;
    for (const piece of pieces) {
        if (isChange(piece) || piece.where === 'level ') continue;
        const text = withoutMade(piece.text, move).replace(NAME, '').replace(TIME, (time) => {
            const second = time.split(':').reduce((sum, part) => sum * 60 + Number(part), 0);
            assert.ok(numbers.has(String(second)), `${whose}: no answer has the second of '${piece.text}'`);
            return '';
        });
        for (const [figure] of text.matchAll(FIGURE)) {
            assert.ok(isAmong(figure, numbers), `${whose}: '${figure}' of '${piece.text}' (${piece.where}) stands in ` +
                'none of the lines and answers');
            looked += 1;
        }
    }
    return looked;
}

/** Looks at the figures of the answer to a line that stand in a room, which has the program's own line too. */
export async function lookAtAnswer(/** @type {import('./browser.mjs').Browser} */ browser, /** @type {string} */ room,
    /** @type {string} */ line, /** @type {string} */ answer) {
    const pieces = await browser.value(`(${PIECES})(document.querySelector(${JSON.stringify(room)}))`);
    const numbers = new Set([...line.split(/[ /]/), ...answer.split(' ')]);
    return lookAtPieces(pieces.filter((/** @type {any} */ { text }) => text !== answer), numbers, [0n, 1n], line);
}

/** Looks at the reasons that stand in a room, of an evaluation and of what was before it. */
export async function lookAtReasons(/** @type {import('./browser.mjs').Browser} */ browser, /** @type {string} */ room,
    /** @type {Told[]} */ told) {
    const pieces = await browser.value(`(${PIECES})(document.querySelector(${JSON.stringify(room)}))`);
    const { numbers, move } = numbersOf(told);
    const { figures } = told[told.length - 1];
    return lookAtPieces(pieces, numbers, move, room) + lookAtSentences(pieces, figures, room);
}

/** Looks at all that is shown of some securities; every figure has to stand in their lines and answers. */
export async function lookAtEach(/** @type {import('./browser.mjs').Browser} */ browser,
    /** @type {Map<string, Told[]>} */ told, /** @type {string[]} */ ids) {
    let looked = 0;
    for (const { id, pieces, ...placed } of await browser.value(ALL_OF(ids))) {
        const ofIt = /** @type {Told[]} */ (told.get(id));
        const { numbers, move } = numbersOf(ofIt);
        assert.ok(pieces.length > 3, `security ${id} shows nothing`);
        const isEvaluated = ofIt.some(({ call }) => call === 'evaluate');
        if (isEvaluated) {
            assert.deepEqual(placedOf(placed), expectedOf(ofIt), `security ${id}`);
            const { figures } = ofIt.findLast(({ call }) => call === 'evaluate');
            looked += lookAtSentences(pieces, figures, `security ${id}`);
        }
        lookAtStatics(placed.tables.Statics, ofIt[0].line);
        looked += lookAtPieces(pieces, numbers, move, `security ${id}`);
    }
    return looked;
}
