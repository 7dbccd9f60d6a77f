// Drives a headless Chromium over a pipe, with nothing to install beside it: Debian has it in `chromium`.
import { spawn } from 'node:child_process';
import fs from 'node:fs';
import path from 'node:path';
import { later, makeBrowser, makeFolder, makeWaiting, pressOf, until } from './browser.mjs';

const WORDS = ['--headless=new', '--no-sandbox', '--disable-gpu', '--hide-scrollbars', '--lang=en-US', '--no-first-run',
    '--disable-dev-shm-usage', '--disable-background-networking', '--disable-component-update',
    '--remote-debugging-pipe'];
const SHIFT = 8;
const CONTROL = 2;
const A4 = { paperWidth: 8.27, paperHeight: 11.69, preferCSSPageSize: true, printBackground: false };

/** The messages of the browser's protocol: JSON, each ended by a byte 0, on the pipes 3 and 4. */
function protocolOf(/** @type {any} */ process) {
    const waiting = makeWaiting();
    /** @type {any[]} */
    const events = [];
    /** @type {Buffer[]} */
    let gathered = [];
    const hear = (/** @type {any} */ { id, error, result, ...event }) => {
        if (id === undefined) events.push(event);
        else if (error) waiting.refuse(id, error.message);
        else waiting.answer(id, result);
    };
    process.on('exit', () => waiting.end('Chromium has ended'));
    process.stdio[3].on('error', () => {}); // a pipe to a browser that has ended
    process.stdio[4].on('data', (/** @type {Buffer} */ some) => {
        for (let end = some.indexOf(0); end >= 0; end = some.indexOf(0)) {
            hear(JSON.parse(Buffer.concat([...gathered, some.subarray(0, end)]).toString()));
            gathered = [];
            some = some.subarray(end + 1);
        }
        gathered.push(some);
    });
    const send = (/** @type {string} */ method, params = {}, sessionId = undefined) => {
        const { number, answer } = waiting.next();
        process.stdio[3].write(`${JSON.stringify({ id: number, method, params, sessionId })}\0`);
        return answer;
    };
    return { events, send };
}

/** What the page said of errors, and what it asked for beside itself. @returns {string[]} */
function complaintsIn(/** @type {any[]} */ events) {
    const isError = (/** @type {any} */ { method, params }) => method === 'Runtime.exceptionThrown' ||
        (method === 'Log.entryAdded' && params.entry.level === 'error') ||
        (method === 'Runtime.consoleAPICalled' && params.type === 'error');
    const errors = events.filter(isError).map(({ params }) => JSON.stringify(params).slice(0, 400));
    const requests = events.filter(({ method }) => method === 'Network.requestWillBeSent')
        .map(({ params }) => params.request.url)
        .filter((url) => !/^(file:.*nedrubal\.html$|about:|blob:)/.test(url));
    return [...errors, ...requests];
}

/** Starts a browser with one page. */
export async function startChromium() {
    const { folder, downloads } = makeFolder();
    const process = spawn('chromium', [...WORDS, `--user-data-dir=${folder}`, 'about:blank'],
        { stdio: ['ignore', 'ignore', 'ignore', 'pipe', 'pipe'] });
    const failed = new Promise((_, refuse) => process.on('error', refuse));
    const { events, send } = protocolOf(process);
    const { targetInfos } = await Promise.race([send('Target.getTargets'), failed]);
    const { targetId } = targetInfos.find((/** @type {any} */ one) => one.type === 'page');
    const { sessionId } = await send('Target.attachToTarget', { targetId, flatten: true });
    const call = (/** @type {string} */ method, params = {}) => send(method, params, sessionId);
    for (const domain of ['Page', 'Runtime', 'Network', 'DOM', 'Log']) await call(`${domain}.enable`);
    await send('Browser.setDownloadBehavior', { behavior: 'allow', downloadPath: downloads, eventsEnabled: true });
    const { product, userAgent } = await send('Browser.getVersion');

    async function value(/** @type {string} */ expression) {
        const { result, exceptionDetails } = await call('Runtime.evaluate',
            { expression, returnByValue: true, awaitPromise: true });
        if (exceptionDetails) throw new Error(exceptionDetails.exception?.description ?? exceptionDetails.text);
        return result.value;
    }

    async function nodeOf(/** @type {string} */ selector) {
        const { root } = await call('DOM.getDocument');
        const { nodeId } = await call('DOM.querySelector', { nodeId: root.nodeId, selector });
        if (nodeId === 0) throw new Error(`there is no ${selector}`);
        return nodeId;
    }

    async function mouse(/** @type {string} */ type, /** @type {number} */ x, /** @type {number} */ y) {
        await call('Input.dispatchMouseEvent', { type, x, y, button: 'left', clickCount: 1 });
    }

    return makeBrowser({
        name: product.replace(/^Headless/, '').replace('Chrome/', 'Chromium '),
        value,
        async go(url) {
            await call('Page.navigate', { url });
            await until(() => value("document.readyState === 'complete'"), url);
        },
        async give(selector, file) {
            await call('DOM.setFileInputFiles', { nodeId: await nodeOf(selector), files: [file] });
        },
        async press(press) {
            const { key, code, text, isShift, isControl } = /** @type {any} */ (pressOf(press));
            const modifiers = (isShift ? SHIFT : 0) + (isControl ? CONTROL : 0);
            const one = { key, code: key.length === 1 ? undefined : key, windowsVirtualKeyCode: code, modifiers };
            const commands = isControl && key === 'a' ? ['selectAll'] : undefined;
            const written = isControl ? undefined : text;
            await call('Input.dispatchKeyEvent', { type: 'keyDown', ...one, text: written, commands });
            await call('Input.dispatchKeyEvent', { type: 'keyUp', ...one });
        },
        async type(text) {
            for (const key of text) {
                await call('Input.dispatchKeyEvent', { type: 'keyDown', key, text: key });
                await call('Input.dispatchKeyEvent', { type: 'keyUp', key });
            }
        },
        async click(selector) {
            const nodeId = await nodeOf(selector);
            await call('DOM.scrollIntoViewIfNeeded', { nodeId });
            const { model } = await call('DOM.getBoxModel', { nodeId });
            const [x, y] = [0, 1].map((axis) => (model.border[axis] + model.border[axis + 4]) / 2);
            await mouse('mousePressed', x, y);
            await mouse('mouseReleased', x, y);
        },
        async resize(width, height, isDark) {
            const mobile = width < 600;
            await call('Emulation.setDeviceMetricsOverride', { width, height, deviceScaleFactor: 1, mobile });
            const scheme = isDark ? 'dark' : 'light';
            await call('Emulation.setEmulatedMedia', { features: [{ name: 'prefers-color-scheme', value: scheme }] });
        },
        async speak(language) {
            await call('Emulation.setUserAgentOverride', { userAgent, acceptLanguage: language });
        },
        async photograph() {
            const { data } = await call('Page.captureScreenshot', { format: 'png' });
            return Buffer.from(data, 'base64');
        },
        async print() {
            const { data } = await call('Page.printToPDF', A4);
            return Buffer.from(data, 'base64');
        },
        async arrived() {
            const begun = events.filter(({ method }) => method === 'Browser.downloadWillBegin');
            const ended = events.filter(({ method, params }) => (
                method === 'Browser.downloadProgress' && params.state === 'completed'));
            return ended.map(({ params }) => begun.find((one) => one.params.guid === params.guid))
                .map(({ params }) => path.join(downloads, params.suggestedFilename));
        },
        async leave() {
            const before = events.length;
            call('Page.navigate', { url: 'about:blank' }).catch(() => {});
            const said = await until(() => events.slice(before).find(({ method }) =>
                method === 'Page.javascriptDialogOpening' || method === 'Page.frameNavigated'), 'the page is left');
            if (said.method === 'Page.frameNavigated') return false;
            await call('Page.handleJavaScriptDialog', { accept: false });
            return said.params.type === 'beforeunload';
        },
        complaints: async () => complaintsIn(events),
        async end() {
            const ended = new Promise((done) => process.on('exit', done));
            send('Browser.close').catch(() => {});
            await Promise.race([ended, later(3000)]);
            process.kill();
            await Promise.race([ended, later(2000)]);
            fs.rmSync(folder, { recursive: true, force: true, maxRetries: 5 });
        },
    });
}
