// The sheet as files of comma-separated values.
import { plain } from './figures.mjs';

const live = (securities) => securities.filter(({ record }) => record !== null && record.live === 1);
const csv = (head, rows) => [head, ...rows].map((row) => `${row.join(',')}\r\n`).join('');
const roubles = (units) => (units === undefined ? '' : plain(units, 4));

/** The downloads, by the names that members' systems know from the exchange's interface; units stand in the head. */
export const DOWNLOADS = {
    ASSETS: (securities) => csv(
        ['security', 'evaluation (roubles)', 'volatility (millionths)', 'tentative rate (per cent)'],
        live(securities).map(({ id, record }) => [id, roubles(record.p1), record.s, plain(record.tentative, 2)]),
    ),
    RM_PRICERANGE: (securities) => csv(
        ['security', 'level', 'lower (roubles)', 'upper (roubles)'],
        live(securities).flatMap(({ id, record }) =>
            [1, 2, 3].map((level) => [id, level, roubles(record[`lower${level}`]), roubles(record[`upper${level}`])])),
    ),
    RM_INDICATIVE: (securities) => csv(
        ['security', 'level', 'rate (per cent)'],
        live(securities).flatMap(({ id, record }) =>
            [1, 2, 3].map((level) => [id, level, plain(record[`s${level}`], 2)])),
    ),
    PRICEMOVELIMIT: (securities) => csv(
        ['security', 'term', 'lower (roubles)', 'upper (roubles)', 'days of the term'],
        live(securities).flatMap(({ id, record }) => [0, 1, 2].map((term) =>
            [id, term, roubles(record[`lower_${term}`]), roubles(record[`upper_${term}`]), record[`k_${term}`] ?? ''])),
    ),
};
