// Prints every instruction of a WebAssembly module, a line each: the number of its function, its place in the module in
// hexadecimal, a tab, and its name. It knows the instructions of WebAssembly 1.0, sign extension, bulk memory and
// conversions that saturate; at any other it stops, so that none is out of sight.
//   node outside/opcodes.mjs MODULE
// Status 1 says that the module has something else in it, or that a function does not end where its length says.
import fs from 'node:fs';
import process from 'node:process';

const spread = (before, names) => names.split(' ').map((name) => `${before}.${name}`);
const compared = 'eq ne lt_s lt_u gt_s gt_u le_s le_u ge_s ge_u';
const counted = 'clz ctz popcnt add sub mul div_s div_u rem_s rem_u and or xor shl shr_s shr_u rotl rotr';
const floated = 'abs neg ceil floor trunc nearest sqrt add sub mul div min max copysign';
// The instructions without anything behind their byte: from 0x45 on without a gap.
const plain = [
    ...spread('i32', `eqz ${compared}`), ...spread('i64', `eqz ${compared}`),
    ...spread('f32', 'eq ne lt gt le ge'), ...spread('f64', 'eq ne lt gt le ge'),
    ...spread('i32', counted), ...spread('i64', counted), ...spread('f32', floated), ...spread('f64', floated),
    ...spread('i32', 'wrap_i64 trunc_f32_s trunc_f32_u trunc_f64_s trunc_f64_u'),
    ...spread('i64', 'extend_i32_s extend_i32_u trunc_f32_s trunc_f32_u trunc_f64_s trunc_f64_u'),
    ...spread('f32', 'convert_i32_s convert_i32_u convert_i64_s convert_i64_u demote_f64'),
    ...spread('f64', 'convert_i32_s convert_i32_u convert_i64_s convert_i64_u promote_f32'),
    'i32.reinterpret_f32', 'i64.reinterpret_f64', 'f32.reinterpret_i32', 'f64.reinterpret_i64',
    ...spread('i32', 'extend8_s extend16_s'), ...spread('i64', 'extend8_s extend16_s extend32_s'),
];
// From 0x28 on, each with how it is aligned and an offset.
const memory = [
    'i32.load', 'i64.load', 'f32.load', 'f64.load', ...spread('i32', 'load8_s load8_u load16_s load16_u'),
    ...spread('i64', 'load8_s load8_u load16_s load16_u load32_s load32_u'),
    'i32.store', 'i64.store', 'f32.store', 'f64.store', ...spread('i32', 'store8 store16'),
    ...spread('i64', 'store8 store16 store32'),
];
// The others, each with what stands behind it: n a whole number, t a block's type, l a list and a number, 0 a byte,
// 4 and 8 that many bytes.
const others = {
    0x00: ['unreachable', ''], 0x01: ['nop', ''], 0x02: ['block', 't'], 0x03: ['loop', 't'], 0x04: ['if', 't'],
    0x05: ['else', ''], 0x0b: ['end', ''], 0x0c: ['br', 'n'], 0x0d: ['br_if', 'n'], 0x0e: ['br_table', 'l'],
    0x0f: ['return', ''], 0x10: ['call', 'n'], 0x11: ['call_indirect', 'nn'], 0x1a: ['drop', ''],
    0x1b: ['select', ''], 0x20: ['local.get', 'n'], 0x21: ['local.set', 'n'], 0x22: ['local.tee', 'n'],
    0x23: ['global.get', 'n'], 0x24: ['global.set', 'n'], 0x3f: ['memory.size', '0'], 0x40: ['memory.grow', '0'],
    0x41: ['i32.const', 'n'], 0x42: ['i64.const', 'n'], 0x43: ['f32.const', '4'], 0x44: ['f64.const', '8'],
};
// Behind 0xfc.
const more = [
    ...spread('i32', 'trunc_sat_f32_s trunc_sat_f32_u trunc_sat_f64_s trunc_sat_f64_u'),
    ...spread('i64', 'trunc_sat_f32_s trunc_sat_f32_u trunc_sat_f64_s trunc_sat_f64_u'),
].map((name) => [name, '']);
more.push(['memory.init', 'n0'], ['data.drop', 'n'], ['memory.copy', '00'], ['memory.fill', '0']);

const bytes = fs.readFileSync(process.argv[2]);
let at = 0;

// A whole number in groups of seven bits, the lowest first. Of a signed one only the length matters here.
function number() {
    let value = 0;
    for (let place = 1; ; place *= 128) {
        const byte = bytes[at++];
        value += (byte & 127) * place;
        if (!(byte >= 128)) return value;
    }
}

const behind = {
    n: number,
    t: number,
    l: () => { for (let left = number() + 1; left > 0; left -= 1) number(); },
    0: () => { at += 1; },
    4: () => { at += 4; },
    8: () => { at += 8; },
};

function instruction() {
    const place = at;
    const code = bytes[at++];
    let [name, parts] = others[code] ?? [plain[code - 0x45], ''];
    if (code >= 0x28 && code <= 0x3e) [name, parts] = [memory[code - 0x28], 'nn'];
    if (code === 0xfc) [name, parts] = more[number()] ?? [];
    if (name === undefined) throw new Error(`no instruction that is known begins with 0x${code.toString(16)} at ${place}`);
    for (const part of parts) behind[part]();
    return name;
}

function functions(said) {
    const count = number();
    for (let which = 0; which < count; which += 1) {
        const length = number();
        const end = at + length;
        for (let locals = number(); locals > 0; locals -= 1) { number(); number(); }
        let last = '';
        while (at < end) {
            const place = at.toString(16);
            last = instruction();
            said.push(`${which} ${place}\t${last}\n`);
        }
        if (at !== end || last !== 'end') throw new Error(`function ${which} does not end at ${end}`);
    }
}

try {
    if (bytes.readUInt32LE(0) !== 0x6d736100 || bytes.readUInt32LE(4) !== 1) throw new Error('it is no module');
    const said = [];
    at = 8;
    while (at < bytes.length) {
        const section = number();
        const length = number();
        const end = at + length;
        if (section === 10) functions(said);
        at = end;
    }
    process.stdout.write(said.join(''));
} catch (error) {
    console.error(`opcodes: ${process.argv[2]}: ${error.message}`);
    process.exitCode = 1;
}
