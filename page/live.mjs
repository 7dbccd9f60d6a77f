// A program that waits in `read` for its next line, so that an evening is not run anew for each line that is typed. Its
// module was made by `wasm-opt --asyncify` (outside/page): where no byte is left, `read` has the program store its
// calls and locals in the memory and return; with the next line it is called again, and goes on where it waited.
// Between lines all that the program knows stands in its memory, which can be kept and put back.
import { keptOf, makeGatherer, putBack } from './memory.mjs';
import { textOf } from './programs.mjs';

const PAGE = 65536;
const REWINDING = 2; // what asyncify_get_state answers while the program returns to where it waited
const STANDARD_ERROR = 2;
const NOTHING = new Uint8Array(0);

/**
 * @typedef {import('./memory.mjs').Kept} Kept
 *
 * @typedef {object} Live
 * @property {(bytes: Uint8Array) => string} hear  What the program answers to more of its input, a character a byte.
 * @property {(old?: Kept) => Kept} keep  Its memory between two lines; the room of one no more wanted may be given.
 * @property {(kept: Kept) => void} goBack  Puts a memory back: the program knows what it knew then.
 */

/**
 * Starts a program, which then waits for its first line.
 * @param {WebAssembly.Module} module
 * @returns {Promise<Live>}
 */
export async function startLive(module) {
    let input = NOTHING;
    const answers = makeGatherer();
    const said = makeGatherer();
    let waits = false;
    let wantedAt = 0;
    const env = {
        read: (/** @type {number} */ _from, /** @type {number} */ address, /** @type {bigint} */ length) => {
            if (program.asyncify_get_state() === REWINDING) program.asyncify_stop_rewind();
            if (input.length === 0) {
                wantedAt = address;
                waits = true;
                new Int32Array(memory.buffer, room, 2).set([room + 8, room + PAGE]);
                program.asyncify_start_unwind(room);
                return 0n;
            }
            const some = input.subarray(0, Number(length));
            whole.set(some, address);
            input = input.subarray(some.length);
            return BigInt(some.length);
        },
        write: (/** @type {number} */ to, /** @type {number} */ address, /** @type {bigint} */ length) => {
            (to === STANDARD_ERROR ? said : answers).add(whole, address, Number(length));
            return length;
        },
    };
    const program = /** @type {any} */ ((await WebAssembly.instantiate(module, { env })).exports);
    /** @type {WebAssembly.Memory} */
    const memory = program.memory;
    const room = memory.grow(1) * PAGE; // behind all that the program knows of
    const whole = new Uint8Array(memory.buffer); // it does not grow again

    function goOn() {
        waits = false;
        program.main();
        if (!waits) throw new Error(`the program ended: ${textOf(said.take()).trim()}`);
        program.asyncify_stop_unwind();
    }
    goOn();
    const firstWantedAt = wantedAt;

    /**
     * The height of the program's stack is no part of its memory, so it has to be the same wherever one is kept or put
     * back. The place where bytes are wanted lies on the stack, and tells: between two lines it is the first one.
     */
    function mustWaitForALine() {
        if (wantedAt !== firstWantedAt) throw new Error('the program is in the middle of a line');
    }

    return {
        hear(bytes) {
            input = bytes;
            program.asyncify_start_rewind(room);
            goOn();
            return textOf(answers.take());
        },
        keep(old) {
            mustWaitForALine();
            return keptOf(whole, old);
        },
        goBack(kept) {
            mustWaitForALine();
            putBack(whole, kept);
        },
    };
}
