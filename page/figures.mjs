// Whole numbers of the programs as a person reads them: prices in roubles, rates in per cent, in the reader's grouping.
// Only the point moves; no digit is lost. Fractions are exact, of BigInt.

/** A whole number of 10^-places, as its digits before and behind the point; at least `least` behind it. */
function digitsOf(value, places, least) {
    const size = BigInt(value < 0 ? -value : value);
    const unit = 10n ** BigInt(places);
    const behind = String(size % unit).padStart(places, '0').replace(/0+$/, '').padEnd(least, '0');
    return { below: value < 0, whole: size / unit, behind: places === 0 ? '' : behind };
}

/** The same with a point and no grouping, all places there: for files that programs read. */
export function plain(value, places) {
    const { below, whole, behind } = digitsOf(value, places, places);
    return `${below ? '-' : ''}${whole}${behind === '' ? '' : `.${behind}`}`;
}

/** How many places behind the point all of some prices need, two at least. */
export function placesOf(prices) {
    return Math.max(2, ...prices.map((units) => digitsOf(units, 4, 0).behind.length));
}

/** A quotient of whole numbers, rounded half up in its size. */
function nearest(over, under) {
    const size = over < 0n ? -over : over;
    const rounded = (2n * size + under) / (2n * under);
    return over < 0n ? -rounded : rounded;
}

const MINUS = '\u2212';
const NONE = '–';

/**
 * Figures in the grouping of a language.
 * @param {string} [language] a language tag; the machine's own where there is none
 */
export function makeFigures(language) {
    // The checker of types has no numberingSystem yet.
    const digits = /** @type {any} */ ({ numberingSystem: 'latn' });
    const grouping = new Intl.NumberFormat(language, { maximumFractionDigits: 0, ...digits });
    const half = new Intl.NumberFormat(language, { minimumFractionDigits: 1, ...digits });
    const point = half.formatToParts(1.5).find((part) => part.type === 'decimal')?.value ?? '.';
    const scaled = (value, places, least) => {
        if (value === null || value === undefined) return NONE;
        const { below, whole, behind } = digitsOf(value, places, least);
        return `${below ? MINUS : ''}${grouping.format(whole)}${behind === '' ? '' : `${point}${behind}`}`;
    };
    const inPerCent = (figure) => (figure === NONE ? NONE : `${figure} %`);
    return {
        whole: (value) => scaled(value, 0, 0),
        /** Ten-thousandths of a rouble. */
        roubles: (units, places = 2) => scaled(units, 4, places),
        hundredths: (value) => scaled(value, 2, 2),
        /** Basis points as per cent. */
        perCent: (bp) => inPerCent(scaled(bp, 2, 2)),
        /** Millionths as per cent. */
        volatility: (millionths) => inPerCent(scaled(millionths, 4, 4)),
        /** The change from a price to another in per cent, to the nearest hundredth: for the eye, decides nothing. */
        change: (price, before) => {
            if (!before || price === null || price === undefined) return NONE;
            const hundredths = nearest((BigInt(price) - BigInt(before)) * 10000n, BigInt(before));
            return `${hundredths > 0n ? '+' : ''}${scaled(hundredths, 2, 2)} %`;
        },
        /** A fraction as a whole number and the rest in lowest terms: 20,000 + 1/3. */
        fraction: (/** @type {import('./move.mjs').Move} */ move) => {
            const whole = move.over / move.under;
            const rest = move.over % move.under;
            if (rest === 0n) return grouping.format(whole);
            const by = greatestCommon(rest, move.under);
            const part = `${grouping.format(rest / by)}/${grouping.format(move.under / by)}`;
            return whole === 0n ? part : `${grouping.format(whole)} + ${part}`;
        },
        /** Its first three places, with dots where there are more. */
        places: (/** @type {import('./move.mjs').Move} */ move) => {
            const thousandths = (move.over * 1000n) / move.under;
            const more = (move.over * 1000n) % move.under !== 0n;
            return more ? `${scaled(thousandths, 3, 3)}…` : scaled(thousandths, 3, 0);
        },
    };
}

function greatestCommon(one, other) {
    while (other !== 0n) [one, other] = [other, one % other];
    return one;
}
