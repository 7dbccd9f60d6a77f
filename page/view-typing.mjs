// Numbers as a reader types them: in the grouping and with the decimal mark of her language. The fields' own kinds
// (kinds.mjs) know digits and a point alone.

const NUMERIC = /^-?[\d\s.,'’٬]+$/;
const escaped = (/** @type {string} */ text) => text.replace(/[.*+?^${}()|[\]\\]/g, '\\$&');

/**
 * @param {string} [language] a language tag; the machine's own where there is none
 * @returns {{ plain: (typed: string) => string, shown: (plain: string) => string, range: (words: string) => string }}
 *     `plain` is what the kinds read, `shown` what stands in a field, `range` has the numbers of a sentence grouped.
 */
export function makeTyping(language) {
    const how = /** @type {any} */ ({ maximumFractionDigits: 1, numberingSystem: 'latn' });
    const parts = new Intl.NumberFormat(language, how).formatToParts(1234567.5);
    const mark = (/** @type {string} */ type, /** @type {string} */ other) => (
        parts.find((part) => part.type === type)?.value ?? other);
    const point = mark('decimal', '.');
    const group = mark('group', '');
    const between = /^\s?$/.test(group) ? '\\s' : escaped(group);
    // "1,50" is no thousand and a half: the last group has three digits.
    const grouped = new RegExp(`^-?\\d{1,3}(?:${between}\\d{2,3})*${between}\\d{3}(?=$|${escaped(point)})`);
    const groups = new RegExp(between, 'g');
    const whole = new Intl.NumberFormat(language, /** @type {any} */ ({ numberingSystem: 'latn' }));
    return {
        plain(typed) {
            const text = typed.trim();
            if (!NUMERIC.test(text)) return text;
            const together = text.replace(grouped, (some) => some.replace(groups, ''));
            return point === '.' ? together : together.replace(point, '.');
        },
        shown: (plain) => (/^-?\d+\.\d+$/.test(plain) ? plain.replace('.', point) : plain),
        range: (words) => words.replace(/(\d+)(?:\.(\d+))?/g, (all, digits, behind) => {
            if (/^0\d/.test(digits)) return all; // of a time
            return whole.format(BigInt(digits)) + (behind === undefined ? '' : point + behind);
        }),
    };
}
