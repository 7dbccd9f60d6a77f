// The table of securities: sorted by any column, filtered by id and by what happened.
import { el } from './element.mjs';
import { placesOf } from './figures.mjs';
import { COLUMNS, chosen } from './columns.mjs';
import { HAPPENED } from './security.mjs';
import { makeColumns } from './view-columns.mjs';

const SHORT = { rose: '▲ rose', fell: '▼ fell', waits: '… waits', maximum: 'at max', hidden: '◆ rounding' };
const BADGES = { ...HAPPENED, ...SHORT };
const SESSIONS = ['main', 'evening'];

/** What happened to a security, each as a badge. */
export function badges(security) {
    return Object.keys(HAPPENED)
        .filter((key) => security.happened.has(key))
        .map((key) => el('span', { class: `badge ${key}`, title: HAPPENED[key] }, BADGES[key]));
}

/** A session's name; a broadcast of the old form has none. */
export function sessionOf(session) {
    return SESSIONS[session] ?? '–';
}

function signOf({ record }) {
    return record.p2 && record.p1 !== record.p2 ? (record.p1 > record.p2 ? 'up' : 'down') : null;
}

/** How a cell of a column is shown. */
function cellOf(column, security, figures, places) {
    const figure = column.of(security);
    const isLive = security.record !== null && security.record.live === 1;
    if (column.as === 'happened') {
        const waiting = el('span', { class: 'dim' }, 'not evaluated yet');
        return el('td', { class: 'words' }, ...(isLive ? badges(security) : [waiting]));
    }
    if (figure === null) return el('td', { class: 'dim' }, '–');
    switch (column.as) {
    case 'price': return el('td', {}, figures.roubles(figure, places));
    case 'change': return el('td', { class: signOf(security) }, figures.change(security.record.p1, security.record.p2));
    case 'volatility': return el('td', {}, figures.volatility(figure));
    case 'rate': return el('td', {}, figures.perCent(figure));
    case 'session': return el('td', { class: 'words short' }, sessionOf(figure));
    default: return el('td', {}, figures.whole(figure));
    }
}

/** The places that the prices of a table need, so that their points stand below each other. */
function placesOfAll(securities, columns) {
    const prices = columns.filter((column) => column.as === 'price');
    return placesOf(securities.flatMap((one) => prices.map((column) => column.of(one) ?? 0)));
}

/**
 * Makes the table of a sheet, and answers with what redraws it.
 * @param {{at: HTMLElement, form: HTMLFormElement, count: HTMLElement}} room
 * @param {(security: object, byHand: boolean) => void} choose is told of a security that was chosen
 */
export function makeTable(room, figures, choose) {
    const state = { sheet: null, chosenId: null, key: 'id', descending: false, columns: [], places: 2 };
    /** @type {Map<number, HTMLElement>} the rows that are drawn, by id */
    const rows = new Map();
    const body = el('tbody', { role: 'rowgroup' });
    const columns = makeColumns(room.at);
    const field = (id) => /** @type {HTMLInputElement} */ (room.form.querySelector(`#${id}`));
    const happened = field('filter-happened');
    happened.append(el('option', { value: '' }, 'anything'),
        ...Object.entries(HAPPENED).map(([key, words]) => el('option', { value: key }, words)));

    const found = (id) => state.sheet.securities.find((one) => one.id === id);

    function headOf(column) {
        const isSorted = column.key === state.key;
        const sorted = isSorted ? (state.descending ? 'descending' : 'ascending') : 'none';
        const sort = () => {
            state.descending = isSorted ? !state.descending : column.as !== 'id' && column.as !== 'whole';
            state.key = column.key;
            draw();
            /** @type {HTMLElement} */ (room.at.querySelector(`[data-key="${column.key}"]`)).focus();
        };
        const arrow = isSorted ? (state.descending ? ' ↓' : ' ↑') : '';
        const atLeft = ['id', 'happened', 'session'].includes(column.as);
        return el('th', { scope: 'col', role: 'columnheader', 'aria-sort': sorted, class: atLeft ? 'words' : null },
            el('button', { type: 'button', 'data-key': column.key, onclick: sort },
                column.title.replace(/ (?=\d)/, '\u00a0') + arrow));
    }

    function rowOf(security) {
        const id = el('button', { type: 'button', 'data-id': security.id, onclick: (event) => {
            event.stopPropagation();
            pick(security.id, true);
        } }, String(security.id));
        const current = security.id === state.chosenId ? 'true' : null;
        // Rows whose columns are kept are no table to the browser's style: their roles are said.
        const cells = state.columns.slice(1).map((column) => cellOf(column, security, figures, state.places));
        for (const cell of cells) cell.setAttribute('role', 'cell');
        return el('tr', { role: 'row', 'aria-current': current, onclick: () => pick(security.id, true) },
            el('th', { scope: 'row', role: 'rowheader' }, id), ...cells);
    }

    function pick(id, byHand) {
        rows.get(state.chosenId)?.removeAttribute('aria-current');
        state.chosenId = id;
        rows.get(id)?.setAttribute('aria-current', 'true');
        choose(found(id), byHand);
    }

    /** The securities that the filters leave, in their order. */
    function shownOf() {
        const filter = { id: field('filter-id').value, happened: happened.value };
        return chosen(state.sheet.securities, { ...state, ...filter });
    }

    function count(shown) {
        room.count.textContent = `${figures.whole(shown.length)} of ${figures.whole(state.sheet.securities.length)}`;
    }

    function draw() {
        state.columns = COLUMNS.filter(({ group }) => group === '' || field(`show-${group}`).checked);
        state.places = placesOfAll(state.sheet.securities, state.columns);
        const shown = shownOf();
        rows.clear();
        for (const security of shown) rows.set(security.id, rowOf(security));
        body.replaceChildren(...rows.values());
        const groups = new Set(state.columns.map(({ group }) => group)).size - 1;
        room.at.replaceChildren(el('table', { role: 'table', 'aria-label': 'Securities', 'data-groups': groups },
            el('thead', { role: 'rowgroup' }, el('tr', { role: 'row' }, ...state.columns.map(headOf))), body));
        count(shown);
        columns.measure();
        return shown;
    }

    /** Draws the rows of some securities anew, each at its place; the others stay as they are. */
    function redraw(ids) {
        if (placesOfAll(state.sheet.securities, state.columns) !== state.places) {
            draw();
            return;
        }
        const shown = shownOf();
        const at = new Map(shown.map((one, place) => [one.id, place]));
        const focused = [...ids].find((id) => rows.get(id)?.contains(document.activeElement));
        for (const id of ids) {
            rows.get(id)?.remove();
            rows.delete(id);
        }
        // From the last place on, so that the row behind each one is there already.
        const places = [...ids].filter((id) => at.has(id)).sort((one, other) => at.get(other) - at.get(one));
        for (const id of places) {
            const row = rowOf(shown[at.get(id)]);
            rows.set(id, row);
            body.insertBefore(row, rows.get(shown[at.get(id) + 1]?.id) ?? null);
        }
        rows.get(focused)?.querySelector('button').focus();
        count(shown);
    }

    /** Scrolls the table alone, and not the page, to where a row is seen. */
    function reveal(row) {
        if (row === undefined) return;
        const head = room.at.querySelector('thead').offsetHeight;
        const top = row.offsetTop - head;
        const bottom = row.offsetTop + row.offsetHeight - room.at.clientHeight;
        if (room.at.scrollTop > top) room.at.scrollTop = top;
        else if (room.at.scrollTop < bottom) room.at.scrollTop = bottom;
    }

    // Up and down go from security to security.
    room.at.addEventListener('keydown', (event) => {
        const step = { ArrowDown: 1, ArrowUp: -1 }[event.key];
        const buttons = /** @type {HTMLElement[]} */ ([...room.at.querySelectorAll('tbody th button')]);
        const at = buttons.indexOf(/** @type {HTMLElement} */ (document.activeElement));
        if (step === undefined || at < 0) return;
        event.preventDefault();
        const next = buttons[at + step];
        if (next === undefined) return;
        next.focus();
        pick(Number(next.dataset.id), false);
    });
    room.form.addEventListener('submit', (event) => event.preventDefault());
    room.form.addEventListener('input', () => {
        const shown = draw();
        if (shown.length > 0 && !shown.some((one) => one.id === state.chosenId)) pick(shown[0].id, false);
    });

    return {
        show(sheet) {
            state.sheet = sheet;
            state.chosenId = null;
            const shown = draw();
            const first = shown.find((one) => one.record !== null && one.record.live === 1) ?? shown[0];
            if (first !== undefined) pick(first.id, false);
        },
        /**
         * Shows what has become of some securities; the last of them is chosen.
         * @param {object} sheet
         * @param {Set<number>} ids
         */
        update(sheet, ids) {
            state.sheet = sheet;
            redraw(ids);
            const changed = [...ids].filter((id) => found(id) !== undefined).at(-1);
            const isGone = found(state.chosenId) === undefined;
            const next = changed ?? (isGone ? sheet.securities[0]?.id : undefined);
            if (isGone) state.chosenId = null;
            if (next === undefined) return;
            const isSame = next === state.chosenId;
            pick(next, false);
            requestAnimationFrame(() => { // when all is drawn, so that places are worked out once
                columns.check(rows.get(next));
                if (!isSame) reveal(rows.get(next));
            });
        },
        /** Chooses the security of an id, where there is one. */
        pick(id) {
            if (id === state.chosenId || found(id) === undefined) return;
            pick(id, false);
            reveal(rows.get(id));
        },
    };
}
