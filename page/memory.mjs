// The memory of a program: it can be kept and put back, and what the program writes is gathered out of it.

/**
 * @typedef {object} Kept  A memory as it was. What stands before `from` is 0.
 * @property {number} from
 * @property {Uint8Array} bytes
 */

/** Where the first byte stands that is not 0. The stack comes first in a memory, and much of it is never used. */
function firstUsed(/** @type {Uint8Array} */ memory) {
    const words = new Int32Array(memory.buffer);
    let at = 0;
    while (words[at] === 0) at += 1;
    return at * words.BYTES_PER_ELEMENT;
}

/**
 * A memory as it is.
 * @param {Uint8Array} memory  All of it.
 * @param {Kept} [old]  One that is no more wanted, for its room.
 * @returns {Kept}
 */
export function keptOf(memory, old) {
    const from = firstUsed(memory);
    const used = memory.subarray(from);
    if (old?.bytes.length !== used.length) return { from, bytes: used.slice() };
    old.bytes.set(used);
    return { from, bytes: old.bytes };
}

/** Makes a memory what it was. */
export function putBack(/** @type {Uint8Array} */ memory, /** @type {Kept} */ { from, bytes }) {
    memory.fill(0, 0, from);
    memory.set(bytes, from);
}

const ROOM = 65536;

/** Gathers what a program writes: many small pieces, for which no array each is made. */
export function makeGatherer() {
    let gathered = new Uint8Array(ROOM);
    let length = 0;
    return {
        add(/** @type {Uint8Array} */ memory, /** @type {number} */ address, /** @type {number} */ count) {
            if (length + count > gathered.length) {
                const wider = new Uint8Array(2 * (length + count));
                wider.set(gathered);
                gathered = wider;
            }
            for (let at = 0; at < count; at += 1) gathered[length + at] = memory[address + at];
            length += count;
        },
        /** All of it; from here on what comes then. */
        take() {
            const bytes = gathered.slice(0, length);
            length = 0;
            return bytes;
        },
    };
}
