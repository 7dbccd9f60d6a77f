// The ranges and the bands of a record, drawn to scale: levels 3, 2 and 1 around the evaluation, a bar a term below.
import { svg } from './element.mjs';

const SIDE = 52;
const RANGES_Y = 30;
const RANGES_HEIGHT = 24;
const TERM_HEIGHT = 22;

/** @param {number} width in pixels */
export function ladder(record, figures, width) {
    const terms = [0, 1, 2].filter((term) => record[`lower_${term}`] !== undefined);
    const limits = [
        ...[1, 2, 3].flatMap((level) => [record[`lower${level}`], record[`upper${level}`]]),
        ...terms.flatMap((term) => [record[`lower_${term}`], record[`upper_${term}`]]),
        record.p1,
    ];
    const least = Math.min(...limits);
    const most = Math.max(...limits);
    const at = (price) => SIDE + ((width - 2 * SIDE) * (price - least)) / (most - least || 1);
    const height = RANGES_Y + RANGES_HEIGHT + 22 + terms.length * TERM_HEIGHT;
    const text = (x, y, words, how = {}) => svg('text', { x, y, 'text-anchor': 'middle', ...how }, words);

    const drawn = [3, 2, 1].map((level) => {
        const from = at(record[`lower${level}`]);
        return svg('rect', {
            x: from, y: RANGES_Y, width: Math.max(1, at(record[`upper${level}`]) - from), height: RANGES_HEIGHT, rx: 3,
            class: `level${level}`,
        });
    });
    drawn.push(text(SIDE - 6, RANGES_Y + 16, 'ranges', { 'text-anchor': 'end', class: 'dim' }));
    terms.forEach((term, row) => {
        const y = RANGES_Y + RANGES_HEIGHT + 20 + row * TERM_HEIGHT;
        const [x1, x2] = [at(record[`lower_${term}`]), at(record[`upper_${term}`])];
        drawn.push(
            text(SIDE - 6, y + 4, `${figures.whole(record[`k_${term}`])} d`, { 'text-anchor': 'end', class: 'dim' }),
            svg('line', { x1, x2, y1: y, y2: y, class: 'bandline' }),
        );
    });
    const middle = at(record.p1);
    const price = figures.roubles(record.p1);
    drawn.push(
        svg('line', { x1: middle, x2: middle, y1: RANGES_Y - 8, y2: height - 4, class: 'line price' }),
        text(Math.min(Math.max(middle, SIDE), width - SIDE), RANGES_Y - 14, price, { 'font-weight': 600 }),
    );
    const words = `Ranges from ${figures.roubles(record.lower3)} to ${figures.roubles(record.upper3)} roubles and ` +
        `the bands, around an evaluation of ${price}, to scale; the tables below have the figures`;
    return svg('svg', { viewBox: `0 0 ${width} ${height}`, width, height, role: 'img', 'aria-label': words }, ...drawn);
}
