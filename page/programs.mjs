// Runs the proved programs, which are WebAssembly, on bytes: whole input in, whole output out. A program asks for its
// input by `read` and hands its answers to `write` (INTERFACE.md of the release); it sees nothing else.
import { keptOf, makeGatherer, putBack } from './memory.mjs';

// ---- bytes and text

const CHARACTERS_AT_ONCE = 1024;
const decoder = new TextDecoder('utf-8', { fatal: true });

/** Bytes below 128 as text; null where there are others. Where all are below, each is a character, and only then. */
function plainTextOf(bytes) {
    try {
        const text = decoder.decode(bytes);
        return text.length === bytes.length ? text : null;
    } catch {
        return null;
    }
}

/** Bytes as text, a character a byte, so that no byte is lost or joined with another. */
export function textOf(bytes) {
    const plain = plainTextOf(bytes);
    if (plain !== null) return plain;
    // No decoder leaves all bytes as they are: what a browser calls latin1 is another code.
    let text = '';
    for (let at = 0; at < bytes.length; at += CHARACTERS_AT_ONCE) {
        text += String.fromCharCode(...bytes.subarray(at, at + CHARACTERS_AT_ONCE));
    }
    return text;
}

const NO_BYTE = '?'.charCodeAt(0);

/** The bytes of such a text. A character that is no byte, which a person may type, becomes one that no call has. */
export function bytesOf(text) {
    const bytes = new Uint8Array(text.length);
    for (let at = 0; at < text.length; at += 1) {
        const code = text.charCodeAt(at);
        bytes[at] = code < 256 ? code : NO_BYTE;
    }
    return bytes;
}

/** The lines of a program's output: each is ended by a line feed. */
export function linesOf(bytes) {
    return textOf(bytes).split('\n').slice(0, -1);
}

// ---- a run

const STANDARD_ERROR = 2;

/**
 * What a program may ask of its host in one run of `main` on all of the input.
 * @param {Uint8Array} memory
 * @param {Uint8Array} input
 * @param {string[]} words the program's name first
 */
function hostOf(memory, input, words) {
    const given = words.map((word) => new TextEncoder().encode(word));
    const answers = makeGatherer();
    const said = makeGatherer();
    let at = 0;
    return {
        answers,
        said,
        read: (_from, address, length) => {
            const some = input.subarray(at, at + Number(length));
            memory.set(some, address);
            at += some.length;
            return BigInt(some.length);
        },
        write: (to, address, length) => {
            (to === STANDARD_ERROR ? said : answers).add(memory, address, Number(length));
            return length;
        },
        rattle_arg_count: () => BigInt(given.length),
        rattle_arg: (which, address, room) => {
            const word = given[Number(which)];
            if (word === undefined) return -1n;
            memory.set(word.subarray(0, Number(room)), address);
            return word.length <= Number(room) ? BigInt(word.length) : -2n;
        },
        rattle_set_errno: () => {},
    };
}

/**
 * An instance is for one run of `main`. To make a new one for each takes far longer than a run on a short text, so this
 * one's memory is made what it was at first before each run, and it is a new one again: `main` has returned, so the
 * height of its stack, which is all that it has besides its memory, is the first one too.
 * @param {string} name
 * @param {WebAssembly.Module} module
 */
async function makeRunner(name, module) {
    /** @type {Object<string, any>} */
    let host;
    const calls = WebAssembly.Module.imports(module).map((one) => one.name);
    const env = Object.fromEntries(calls.map((call) => [call, (...numbers) => host[call](...numbers)]));
    const program = /** @type {any} */ ((await WebAssembly.instantiate(module, { env })).exports);
    const memory = new Uint8Array(program.memory.buffer); // it never grows
    const first = keptOf(memory);
    return (/** @type {Uint8Array} */ input, /** @type {string[]} */ words) => {
        putBack(memory, first);
        host = hostOf(memory, input, [name, ...words]);
        program.main();
        return { output: host.answers.take(), said: textOf(host.said.take()).trim() };
    };
}

/**
 * The programs of a release.
 * @param {Object<string, Uint8Array>} modules the bytes of evening.wasm and so on, by the program's name
 */
export function makePrograms(modules) {
    /** @type {Map<string, Promise<WebAssembly.Module>>} */
    const compiled = new Map();
    /** @type {Map<string, ReturnType<typeof makeRunner>>} */
    const runners = new Map();

    /** The module of a program, compiled once. */
    async function compile(/** @type {string} */ name) {
        if (!(name in modules)) throw new Error(`there is no program '${name}'`);
        const module = compiled.get(name) ?? WebAssembly.compile(modules[name]);
        compiled.set(name, module);
        return module;
    }

    /**
     * Runs a program to the end of its input.
     * @param {string} name
     * @param {Uint8Array} input
     * @param {string[]} [words] those behind the program's name
     * @returns {Promise<{ output: Uint8Array, said: string }>} what it wrote, and what it said on standard error
     */
    async function runSaying(name, input, words = []) {
        const runner = runners.get(name) ?? makeRunner(name, await compile(name));
        runners.delete(name); // one that is stopped in its run is not used again
        const made = (await runner)(input, words);
        runners.set(name, runner);
        return made;
    }

    return {
        compiled: compile,
        runSaying,

        /**
         * The same of a program that has nothing to say there.
         * @param {string} name
         * @param {Uint8Array} input
         * @param {string[]} [words]
         * @returns {Promise<Uint8Array>} what it wrote
         */
        async run(name, input, words) {
            const { output, said } = await runSaying(name, input, words);
            if (said !== '') throw new Error(`${name}: ${said}`);
            return output;
        },
    };
}
