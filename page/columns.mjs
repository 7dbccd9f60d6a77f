// The columns of the table of securities, by which it is sorted, and the filters.
import { HAPPENED } from './security.mjs';

/**
 * The columns of the table. `of` gives a column's figure of a security, or null; `as` says how it is shown.
 * @typedef {import('./security.mjs').Security} Security
 * @type {{key: string, title: string, as: string, group: string, of: (security: Security) => number|null}[]}
 */
export const COLUMNS = columns();

/** A number that sorts by what happened, the first of HAPPENED foremost. */
function happenedOrder({ happened }) {
    return Object.keys(HAPPENED).reduce((bits, key) => 2 * bits + (happened.has(key) ? 1 : 0), 0);
}

function columns() {
    const isLive = (security) => security.record !== null && security.record.live === 1;
    const figure = (name) => (security) => (isLive(security) ? security.record[name] ?? null : null);
    const column = (key, title, as, group = '') => ({ key, title, as, group, of: figure(key) });
    const change = ({ record }) => (record.p2 ? record.p1 / record.p2 - 1 : null);
    return [
        { key: 'id', title: 'Id', as: 'id', group: '', of: (security) => security.id },
        column('p1', 'Evaluation', 'price'),
        { key: 'change', title: 'Change', as: 'change', group: '', of: (one) => (isLive(one) ? change(one) : null) },
        { key: 'happened', title: 'What happened', as: 'happened', group: '', of: happenedOrder },
        column('s', 'Volatility', 'volatility'),
        column('s1', 'Rate 1', 'rate'),
        column('s2', 'Rate 2', 'rate'),
        column('s3', 'Rate 3', 'rate'),
        column('tentative', 'Tentative', 'rate'),
        ...[3, 2, 1].map((level) => column(`lower${level}`, `Lower ${level}`, 'price', 'ranges')),
        ...[1, 2, 3].map((level) => column(`upper${level}`, `Upper ${level}`, 'price', 'ranges')),
        ...[0, 1, 2].flatMap((term) => [
            column(`k_${term}`, `Days ${term}`, 'whole', 'bands'),
            column(`lower_${term}`, `Band ${term} lower`, 'price', 'bands'),
            column(`upper_${term}`, `Band ${term} upper`, 'price', 'bands'),
        ]),
        column('movesUpper', 'Moves ▲', 'whole'),
        column('movesLower', 'Moves ▼', 'whole'),
        column('session', 'Session', 'session'),
        column('day', 'Day', 'whole'),
    ];
}

/** The securities that a filter leaves, in the order of a column; those without a figure come last. */
export function chosen(securities, { id = '', happened = '', key = 'id', descending = false }) {
    const { of } = COLUMNS.find((column) => column.key === key);
    const sign = descending ? -1 : 1;
    // A mark is looked for on all days, what else happened on the last one.
    const has = (one) => (happened === 'hidden' ? one.hidden.length > 0 : one.happened.has(happened));
    return securities
        .filter((one) => String(one.id).includes(id.trim()) && (happened === '' || has(one)))
        .map((security) => ({ security, figure: of(security) }))
        .sort((one, other) => {
            const byId = one.security.id - other.security.id;
            if (one.figure === null || other.figure === null) {
                return Number(one.figure === null) - Number(other.figure === null) || byId;
            }
            return sign * (one.figure - other.figure) || byId;
        })
        .map(({ security }) => security);
}
