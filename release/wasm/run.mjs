// Runs a proved program that is compiled to WebAssembly, by node: standard input and output are the program's own.
//   node run.mjs PROGRAM [--strict] [WORD...] <INPUT
// PROGRAM is the path of a module, or the name of one that stands beside this file: evening, why, broadcast, listen;
// exchange, which takes a WORD, the security's id; or night, which takes the numbers of a day and ids. INTERFACE.md says
// what a module needs.
// The status is 0; 1 where the program says on standard error that it could not read or write, listen printed a refusal,
// or night's text is bad; 2 where the words are wrong, or PROGRAM cannot be read; 3, with --strict behind evening, why
// or broadcast, where a line was refused or was no call.
import fs from 'node:fs';
import path from 'node:path';
import process from 'node:process';
import { fileURLToPath } from 'node:url';

const COULD_NOT = 1;
const USAGE = 2;
const REFUSED = 3;
const STANDARD_OUTPUT = 1;
const STANDARD_ERROR = 2;

const here = fs.realpathSync(fileURLToPath(import.meta.url));

function refuse(what) {
    fs.writeSync(STANDARD_ERROR, `run.mjs: ${what}; see run.mjs -h\n`);
    process.exit(USAGE);
}

// The head of this file.
function usage() {
    const lines = fs.readFileSync(here, 'utf8').split('\n');
    const head = lines.slice(0, lines.findIndex((line) => !line.startsWith('//')));
    return head.map((line) => line.replace(/^\/\/ ?/, '') + '\n').join('');
}

export function load(program) {
    const file = program.includes('/') || program.endsWith('.wasm')
        ? program
        : path.join(path.dirname(here), `${program}.wasm`);
    try {
        return new WebAssembly.Module(fs.readFileSync(file));
    } catch (error) {
        return refuse(`'${program}' is no program that can be read (${error.code ?? error.message})`);
    }
}

// Runs a module to its end, and gives the status. `read` fills some of the bytes that it is lent, `write` takes some of
// those that it is handed; each gives how many, or -1.
export function run(module, words, read, write) {
    const given = words.map((word) => Buffer.from(word));
    let memory;
    let status = 0;
    const bytes = (at, length) => new Uint8Array(memory.buffer, at, Number(length));
    const env = {
        read: (from, at, length) => BigInt(read(from, bytes(at, length))),
        write: (to, at, length) => {
            const some = bytes(at, length);
            if (to === STANDARD_ERROR && status === 0) {
                status = Buffer.from(some).toString('latin1').startsWith('usage:') ? USAGE : COULD_NOT;
            }
            return BigInt(write(to, some));
        },
        rattle_arg_count: () => BigInt(given.length),
        rattle_arg: (which, at, room) => {
            const word = given[Number(which)];
            if (word === undefined) return -1n;
            bytes(at, room).set(word.subarray(0, Number(room)));
            return word.length <= Number(room) ? BigInt(word.length) : -2n;
        },
        rattle_set_errno: () => {},
    };
    const { exports } = new WebAssembly.Instance(module, { env });
    memory = exports.memory;
    const ended = exports.main();
    return status || ended;
}

// A pipe or a terminal that does not wait has nothing yet, or no room.
const clock = new Int32Array(new SharedArrayBuffer(4));

function patiently(transfer) {
    for (;;) {
        try {
            return transfer();
        } catch (error) {
            if (error.code === 'EOF') return 0; // the end of a console on another system
            if (error.code !== 'EAGAIN' && error.code !== 'EINTR') return -1;
            if (error.code === 'EAGAIN') Atomics.wait(clock, 0, 0, 1);
        }
    }
}

// ---- what is printed

const isNotAccepted = (line) => !line.startsWith('0');
const isRefusedMessage = (line) => line.startsWith('refused ');

// Looks at what is printed, in whatever pieces, and says whether a line passes a test of its beginning.
function makeLooker(passes) {
    const most = 'refused '.length;
    let line = '';
    let found = false;
    return {
        look: (bytes) => {
            for (const byte of bytes) {
                if (byte === 10) {
                    found ||= passes(line);
                    line = '';
                } else if (line.length < most) {
                    line += String.fromCharCode(byte);
                }
            }
        },
        found: () => found,
    };
}

// Whether a line of an evening is refused, or is no call. What is written for members does not say so: `evening` does.
function isRefusedBy(evening, input) {
    const looker = makeLooker(isNotAccepted);
    let at = 0;
    const read = (_, bytes) => {
        const some = input.subarray(at, at + bytes.length);
        bytes.set(some);
        at += some.length;
        return some.length;
    };
    const write = (to, bytes) => {
        if (to === STANDARD_OUTPUT) looker.look(bytes);
        return bytes.length;
    };
    run(evening, ['evening'], read, write);
    return looker.found();
}

function main(words) {
    if (words.length === 0) refuse('which program?');
    if (words[0] === '-h' || words[0] === '--help') {
        fs.writeSync(STANDARD_OUTPUT, usage());
        return 0;
    }
    const [program, ...given] = words;
    const name = path.basename(program, '.wasm');
    const module = load(program);
    const isStrict = given[0] === '--strict' && ['evening', 'why', 'broadcast'].includes(name);
    if (isStrict) given.shift();
    const takesWords = WebAssembly.Module.imports(module).some((one) => one.name === 'rattle_arg');
    if (given.length > 0 && !takesWords) refuse(`${program} reads standard input, and takes no '${given[0]}'`);
    const evening = isStrict && name === 'broadcast' ? load('evening') : null;
    const heard = [];
    const looker = makeLooker(name === 'listen' ? isRefusedMessage : isNotAccepted);
    const isLookedAt = name === 'listen' || (isStrict && !evening);
    const status = run(
        module,
        [program, ...given],
        (from, bytes) => {
            const came = patiently(() => fs.readSync(from, bytes));
            if (evening && came > 0) heard.push(Buffer.from(bytes.subarray(0, came)));
            return came;
        },
        (to, bytes) => {
            const taken = patiently(() => fs.writeSync(to, bytes));
            if (isLookedAt && to === STANDARD_OUTPUT && taken > 0) looker.look(bytes.subarray(0, taken));
            return taken;
        },
    );
    if (status !== 0) return status;
    if (looker.found()) return name === 'listen' ? COULD_NOT : REFUSED;
    return evening && isRefusedBy(evening, Buffer.concat(heard)) ? REFUSED : 0;
}

if (process.argv[1] !== undefined && fs.realpathSync(process.argv[1]) === here) {
    process.exitCode = main(process.argv.slice(2));
}
