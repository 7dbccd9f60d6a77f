// What the programs knew behind some of the lines of a text, so that they can go back there without hearing all of it
// anew. There are most of them among the last lines, and a few over all the others.

const MOST = 24; // each has about 2 MB
const LATEST = 8; // so many of the last ones are not thinned out

/**
 * @typedef {import('./telling.mjs').Known} Known
 * @typedef {{ at: number, known: Known }} Station  Behind so many lines.
 * @typedef {{ keep: (old?: Known) => Known, goBack: (known: Known) => void }} Telling
 */

/** Which of the earlier ones is missed least: the one with the smallest gap around it. */
function leastMissed(/** @type {Station[]} */ stations) {
    const gap = (/** @type {number} */ at) => stations[at + 1].at - (stations[at - 1]?.at ?? 0);
    let least = 0;
    for (let at = 1; at < stations.length - LATEST; at += 1) if (gap(at) < gap(least)) least = at;
    return least;
}

export function makeStations() {
    /** @type {Station[]} */
    const stations = [];
    return {
        /**
         * Keeps what the programs know behind so many lines.
         * @param {number} at
         * @param {Telling} telling
         * @returns {Known}
         */
        stopAt(at, telling) {
            const last = stations.at(-1);
            if (last?.at === at) return last.known;
            const [old] = stations.length < MOST ? [] : stations.splice(leastMissed(stations), 1);
            const known = telling.keep(old?.known);
            stations.push({ at, known });
            return known;
        },

        /**
         * Has the programs go back to the last station that is not behind so many lines, and drops those that are.
         * @returns {number | null} behind how many lines they now are; null where there is no such station
         */
        goBackTo(/** @type {number} */ count, /** @type {Telling} */ telling) {
            while ((stations.at(-1)?.at ?? 0) > count) stations.pop();
            const last = stations.at(-1);
            if (last === undefined) return null;
            telling.goBack(last.known);
            return last.at;
        },
    };
}
