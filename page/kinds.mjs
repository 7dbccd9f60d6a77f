// How a typed value becomes a word of the evening's text (docs/EVENING.md, "Numbers"), and back, for each kind of
// value. All is worked out on digits and BigInt, and nothing is rounded. An outside price alone is a 64-bit float, and
// its word has the bits.

/**
 * @typedef {{ word: string } | { fault: string }} Read  A word of the text, or in words why there is none.
 * @typedef {object} Kind
 * @property {string} unit  What stands behind a value; '' for a plain number.
 * @property {string[]} [names]  The names of the numbers 0, 1, .. where a value is chosen by name.
 * @property {(typed: string) => Read} read  The word of a typed value, which has no blank around it and is not empty.
 * @property {(word: string) => string} typed  The shortest typed value of a word; `read` gives the word back.
 * @property {(word: string) => bigint[]} numbers  The numbers that a word spells.
 */

const LEAST_NUMBER = -(2n ** 63n);
const MOST_NUMBER = 2n ** 63n - 1n;

/** "It is from -2^63 to 2^63 - 1: a word that spells another number is none" @param {bigint} number @returns {Read} */
function spelled(number) {
    return LEAST_NUMBER <= number && number <= MOST_NUMBER
        ? { word: String(number) }
        : { fault: 'has too many digits' };
}

const one = (/** @type {string} */ word) => [BigInt(word)];

/** A number with so many decimals of its unit: the word counts the last of them. @returns {Kind} */
export function decimal(/** @type {string} */ unit, /** @type {number} */ places) {
    const looks = places === 0 ? 'must be a whole number, in digits alone' : 'must be digits, with at most one point';
    return {
        unit,
        numbers: one,
        read(typed) {
            const [, minus, whole, part = ''] = /^(-?)(\d+)(?:\.(\d+))?$/.exec(typed) ?? [];
            if (whole === undefined || (places === 0 && typed.includes('.'))) return { fault: looks };
            const decimals = part.replace(/0+$/, '');
            if (decimals.length > places) return { fault: `must have at most ${places} decimals` };
            return spelled(BigInt(whole + decimals.padEnd(places, '0')) * (minus === '-' ? -1n : 1n));
        },
        typed(word) {
            const minus = word.startsWith('-') ? '-' : '';
            const digits = word.slice(minus.length).padStart(places + 1, '0');
            const whole = digits.slice(0, digits.length - places);
            const part = digits.slice(digits.length - places).replace(/0+$/, '');
            return minus + whole + (part === '' ? '' : `.${part}`);
        },
    };
}

/** A number that is chosen by its name; a number without a name is typed in digits. @returns {Kind} */
export function choice(/** @type {string[]} */ ...names) {
    return {
        unit: '',
        names,
        numbers: one,
        read(typed) {
            const at = names.indexOf(typed.toLowerCase());
            if (at >= 0) return { word: String(at) };
            return /^-?\d+$/.test(typed) ? spelled(BigInt(typed)) : { fault: `must be ${names.join(' or ')}` };
        },
        typed: (word) => names[Number(word)] ?? word,
    };
}

const SECONDS_OF_DAY = 86_400n;

/** A second of the day, typed as a time or as a number of seconds. @type {Kind} */
export const timeOfDay = {
    unit: 'hh:mm:ss',
    numbers: one,
    read(typed) {
        if (/^-?\d+$/.test(typed)) return spelled(BigInt(typed));
        const time = /^([01]?\d|2[0-3]):([0-5]\d)(?::([0-5]\d))?$/.exec(typed);
        if (time === null) return { fault: 'must be a time as 19:05:30, or seconds since midnight' };
        return { word: String(Number(time[1]) * 3600 + Number(time[2]) * 60 + Number(time[3] ?? 0)) };
    },
    typed(word) {
        const second = BigInt(word);
        if (second < 0n || second >= SECONDS_OF_DAY) return word;
        return [second / 3600n, (second / 60n) % 60n, second % 60n].map((n) => String(n).padStart(2, '0')).join(':');
    },
};

/** A pair of terms YM/YN, which stands in place of a term's repo limits. @type {Kind} */
export const pair = {
    unit: 'days/days',
    numbers: (word) => word.split('/').map(BigInt),
    read(typed) {
        const two = /^(-?\d+)\s*\/\s*(-?\d+)$/.exec(typed);
        if (two === null) return { fault: 'must be two numbers of days with a slash, as 0/1' };
        const read = [two[1], two[2]].map((number) => spelled(BigInt(number)));
        const bad = read.find((part) => 'fault' in part);
        return bad ?? { word: read.map((part) => 'word' in part ? part.word : '').join('/') };
    },
    typed: (word) => word,
};

const eight = new DataView(new ArrayBuffer(8));

/** The bits of a float, as the signed number that a line has. */
export function bitsOf(/** @type {number} */ float) {
    eight.setFloat64(0, float);
    return eight.getBigInt64(0);
}

/** The float that has these bits. */
export function floatOf(/** @type {bigint} */ bits) {
    eight.setBigInt64(0, bits);
    return eight.getFloat64(0);
}

// JavaScript reads a decimal of at most twenty digits, zeros in front not counted, as the nearest float; of more it may
// not.
const DIGITS_MOST = 20;

/** A price that an outside source sends as a float; one that no decimal spells is typed by its bits. @type {Kind} */
export const float = {
    unit: 'roubles',
    numbers: one,
    read(typed) {
        const [, bits] = /^bits (-?\d+)$/.exec(typed) ?? [];
        if (bits !== undefined) return spelled(BigInt(bits));
        if (!/^-?\d+(\.\d+)?$/.test(typed)) return { fault: 'must be digits, with at most one point' };
        const digits = typed.replace(/^[-0.]+|\./g, '').length;
        if (digits > DIGITS_MOST) return { fault: `must have at most ${DIGITS_MOST} digits` };
        return { word: String(bitsOf(Number(typed))) };
    },
    typed(word) {
        const shortest = String(floatOf(BigInt(word)));
        const again = float.read(shortest);
        return 'word' in again && again.word === word ? shortest : `bits ${word}`;
    },
};
