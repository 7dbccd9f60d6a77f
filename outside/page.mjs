// Puts the page into one file: the style, the modules from page/view-main.mjs on, the programs and the examples.
//   node outside/page.mjs FOLDER VERSION PAGE
// FOLDER has the programs as WebAssembly, `evening` and `why` made to wait for a line. A page that is opened from a
// folder cannot load modules, so each becomes a function that hands out what it exports, behind the functions of those
// that it imports.
// Status 1 says that a source is none that can be put so.
import { createHash } from 'node:crypto';
import fs from 'node:fs';
import path from 'node:path';
import process from 'node:process';

const FIRST = 'view-main.mjs';
const PROGRAMS = ['evening', 'why', 'broadcast', 'listen', 'night'];
const EXAMPLES = ['evening.txt', 'why.txt'];
const IMPORT = /^import \{([^}]*)\} from '\.\/([a-z-]+\.mjs)';$/gm;
const PASSED_ON = /^export \{([^}]*)\} from '\.\/([a-z-]+\.mjs)';$/gm;
const EXPORT = /^export (?=(?:async )?(?:function|const|class) ([A-Za-z_$][\w$]*))/gm;

function refuse(what) {
    throw new Error(what);
}

const read = (file) => fs.readFileSync(path.join('page', file), 'utf8');
const nameOf = (file) => `$${file.replace(/\.mjs$/, '').replace(/-/g, '_')}`;

/** A module as a function, and those it stands on before it. */
function gather(file, done, open) {
    if (done.has(file)) return;
    if (open.includes(file)) refuse(`page/${file} imports itself: ${[...open, file].join(', ')}`);
    const imported = [];
    const exported = [];
    const text = read(file)
        .replace(IMPORT, (_, names, from) => {
            imported.push(from);
            return `const {${names.replace(/ as /g, ': ')}} = ${nameOf(from)};`;
        })
        .replace(PASSED_ON, (_, names, from) => {
            imported.push(from);
            exported.push(names.trim());
            return `const {${names}} = ${nameOf(from)};`;
        })
        .replace(EXPORT, (_, name) => {
            exported.push(name);
            return '';
        });
    const left = /^(?:import|export)\b.*$/m.exec(text);
    if (left) refuse(`page/${file} has a line that cannot be put into one file: ${left[0]}`);
    for (const from of imported) gather(from, done, [...open, file]);
    done.set(file, `const ${nameOf(file)} = (() => {\n${text}return { ${exported.join(', ')} };\n})();\n`);
}

/** Text for an element whose end tag it must not have. */
function inside(tag, text) {
    if (new RegExp(`</${tag}|<!--`, 'i').test(text)) refuse(`what stands in <${tag}> would end it`);
    return text;
}

const hashOf = (text) => `'sha256-${createHash('sha256').update(text).digest('base64')}'`;
const dataOf = (value) => inside('script', JSON.stringify(value).replace(/</g, '\\u003c'));

/** Puts a text in place of a line that the page has once. */
function put(page, line, text) {
    if (page.split(line).length !== 2) refuse(`page/index.html has no single line ${line}`);
    return page.split(line).join(text);
}

function make(folder, version) {
    const done = new Map();
    gather(FIRST, done, []);
    const script = inside('script', [...done.values()].join(''));
    const style = inside('style', read('style.css'));
    const base64 = (file) => fs.readFileSync(file).toString('base64');
    const example = (name) => fs.readFileSync(path.join('examples', name), 'latin1');
    const carried = {
        version,
        programs: Object.fromEntries(PROGRAMS.map((name) => [name, base64(path.join(folder, `${name}.wasm`))])),
        examples: Object.fromEntries(EXAMPLES.map((name) => [name, example(name)])),
    };
    // The browser itself is told that the page has no network, and no script but this one.
    const rules = `default-src 'none'; script-src ${hashOf(script)} 'wasm-unsafe-eval'; style-src ${hashOf(style)}; ` +
        "base-uri 'none'; form-action 'none'";
    let page = read('index.html');
    page = put(page, '<!-- rules -->', `<meta http-equiv="Content-Security-Policy" content="${rules}">`);
    page = put(page, '<link rel="stylesheet" href="style.css">', `<style>${style}</style>`);
    page = put(page, '<!-- carried -->', `<script type="application/json" id="carried">${dataOf(carried)}</script>`);
    return put(page, `<script type="module" src="${FIRST}"></script>`, `<script type="module">${script}</script>`);
}

const [folder, version, to] = process.argv.slice(2);
try {
    fs.writeFileSync(to, make(folder, version));
} catch (error) {
    console.error(`page: ${error.message}`);
    process.exitCode = 1;
}
