// The days of a security as a chart: the evaluation with the band of the first term, the three rates as steps, and the
// volatility, over one axis of days.
import { svg } from './element.mjs';

const LEFT = 76;
const RIGHT = 12;
const PANELS = [{ name: 'prices', height: 150 }, { name: 'rates', height: 100 }, { name: 'volatility', height: 76 }];
const GAP = 20;
const FOOT = 20;

/** A panel's way from a figure to a place: the greatest figure at the top. */
function scaleOf(figures, top, height, fromZero) {
    const least = fromZero ? 0 : Math.min(...figures);
    const most = Math.max(...figures);
    const room = most - least || 1; // where all figures are one, they stand at the top
    return { least, most, y: (figure) => top + (height * (most - figure)) / room };
}

function stepsOf(records, x, y, name) {
    const points = [];
    records.forEach((record, at) => {
        if (at > 0) points.push(`${x(record.day)},${y(records[at - 1][name])}`);
        points.push(`${x(record.day)},${y(record[name])}`);
    });
    return points.join(' ');
}

/**
 * @param {object[]} records one a day, oldest first
 * @param {object} figures
 * @param {{width: number, hidden: number[], at: number}} how the days with a mark, and the chosen one
 */
export function daysChart(records, figures, { width, hidden, at }) {
    const days = records.map((record) => record.day);
    const first = days[0];
    const last = days.at(-1);
    const middle = (LEFT + width - RIGHT) / 2;
    const x = (day) => (last === first ? middle : LEFT + ((width - LEFT - RIGHT) * (day - first)) / (last - first));
    const banded = records.filter((record) => record.lower_0 !== undefined);
    const drawn = [];
    const label = (y, words) => drawn.push(svg('text', { x: LEFT - 8, y, 'text-anchor': 'end', class: 'dim' }, words));
    const titled = (top, words) => drawn.push(svg('text', { x: LEFT, y: top - 5, class: 'dim' }, words));
    const axis = (y) => drawn.push(svg('line', { x1: LEFT, x2: width - RIGHT, y1: y, y2: y, class: 'axis' }));
    const dots = (name, y, how) => records.length === 1 &&
        drawn.push(svg('circle', { cx: x(first), cy: y(records[0][name]), r: 4, class: how }));

    let top = GAP;
    const panel = (which, values, fromZero, show, words) => {
        const { height } = PANELS[which];
        const scale = scaleOf(values, top, height, fromZero);
        titled(top, words);
        axis(top);
        axis(top + height);
        label(top + 10, show(scale.most));
        if (scale.least !== scale.most) label(top + height, show(scale.least));
        top += height + GAP + 6;
        return scale.y;
    };

    const prices = [...records.map((one) => one.p1), ...banded.flatMap((one) => [one.lower_0, one.upper_0])];
    const price = panel(0, prices, false, (units) => figures.roubles(units), 'evaluation with its band, roubles');
    const along = (some, y, name) => some.map((one) => `${x(one.day)},${y(one[name])}`);
    const outline = [...along(banded, price, 'upper_0'), ...along(banded, price, 'lower_0').reverse()];
    drawn.push(
        svg('polygon', { points: outline.join(' '), class: 'bandarea' }),
        svg('polyline', { points: along(records, price, 'p1').join(' '), class: 'line price' }),
    );
    dots('p1', price, 'markdot');
    for (const which of hidden) {
        const y = price(records[which].p1);
        drawn.push(svg('path', { d: `M${x(days[which])} ${y - 7}l6 7-6 7-6-7z`, class: 'markdot' },
            svg('title', {}, `day ${days[which]}: rounding first would have hidden the move`)));
    }
    const rate = panel(1, records.map((one) => one.s3), true, (bp) => figures.perCent(bp), 'rates 1, 2, 3');
    for (const level of [3, 2, 1]) {
        drawn.push(svg('polyline', { points: stepsOf(records, x, rate, `s${level}`), class: `line step${level}` }));
        dots(`s${level}`, rate, `level${level}`);
    }
    const swing = panel(2, records.map((one) => one.s), true, (s) => figures.volatility(s), 'volatility');
    drawn.push(svg('polyline', { points: along(records, swing, 's').join(' '), class: 'line volatility' }));
    dots('s', swing, 'markdot');

    const height = top - GAP + FOOT;
    drawn.push(svg('line', { x1: x(days[at]), x2: x(days[at]), y1: GAP, y2: top - GAP - 4, class: 'chosen' }));
    const dayText = (day, anchor) => drawn.push(
        svg('text', { x: x(day), y: top - 6, 'text-anchor': anchor, class: 'dim' }, `day ${figures.whole(day)}`));
    if (first === last) dayText(first, 'middle');
    else {
        dayText(first, 'start');
        dayText(last, 'end');
    }
    const words = `Days ${first} to ${last}: evaluation with its band, the three rates and the volatility; ` +
        'the table of days has the figures';
    return svg('svg', { viewBox: `0 0 ${width} ${height}`, width, height, role: 'img', 'aria-label': words }, ...drawn);
}
