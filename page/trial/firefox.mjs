// Drives a headless Firefox over its own protocol, Marionette, with nothing to install beside it: Debian has it in
// `firefox-esr`. A message is its length, a colon and JSON: [0, number, command, words] or [1, number, error, answer].
import { spawn } from 'node:child_process';
import fs from 'node:fs';
import net from 'node:net';
import path from 'node:path';
import process from 'node:process';
import { later, makeBrowser, makeFolder, makeWaiting, pressOf, until } from './browser.mjs';

const ROOM = { width: 1700, height: 1300 }; // of the window, in which the page gets its own size
const COLON = 58;
const SHIFT = '\uE008';
const CONTROL = '\uE009';
// Only a session that could also be driven by a web socket is asked whether a page may be left.
const SESSION = { webSocketUrl: true, unhandledPromptBehavior: { beforeUnload: 'ignore' } };
const A4 = { page: { width: 21.0, height: 29.7 }, background: false, shrinkToFit: false };

/** Settings of the profile: a free port, downloads without a question, and nothing that asks the network by itself. */
const settingsOf = (/** @type {string} */ downloads) => ({
    'marionette.port': 0,
    'browser.download.folderList': 2,
    'browser.download.dir': downloads,
    'browser.download.useDownloadDir': true,
    'browser.download.always_ask_before_handling_new_types': false,
    'browser.download.alwaysOpenPanel': false,
    'browser.shell.checkDefaultBrowser': false,
    'datareporting.policy.dataSubmissionEnabled': false,
    'app.normandy.enabled': false,
    'app.update.disabledForTesting': true,
    'network.captive-portal-service.enabled': false,
    'network.connectivity-service.enabled': false,
    'intl.accept_languages': 'en-US',
    'ui.useOverlayScrollbars': 1, // as a phone has them
});

// The browser's own side gathers what the page's window is blamed for, and what it asks for by HTTP. A driven Firefox
// asks nobody before it leaves a page, unless it is told to.
const LISTEN = `
    Services.prefs.setBoolPref('dom.disable_beforeunload', false);
    window.heard = [];
    Services.console.registerListener({ observe(message) {
        if (!(message instanceof Ci.nsIScriptError) || message.flags & Ci.nsIScriptError.warningFlag) return;
        if (message.innerWindowID !== 0 || message.sourceName.startsWith('file:')) window.heard.push(String(message));
    } });
    Services.obs.addObserver({ observe(channel) {
        const { browsingContextID } = channel.QueryInterface(Ci.nsIHttpChannel).loadInfo;
        const isOurs = browsingContextID === gBrowser.selectedBrowser.browsingContext.id;
        if (isOurs) window.heard.push('it asks for ' + channel.URI.spec);
    } }, 'http-on-opening-request');`;

const RESIZE = `
    const [width, height, scheme] = arguments;
    const browser = gBrowser.selectedBrowser;
    for (const [name, size] of Object.entries({ width, height })) {
        for (const bound of ['', 'min-', 'max-']) browser.style.setProperty(bound + name, size + 'px');
    }
    browser.browsingContext.prefersColorSchemeOverride = scheme;`;

const ARRIVED = `
    const { Downloads } = ChromeUtils.importESModule('resource://gre/modules/Downloads.sys.mjs');
    return Downloads.getList(Downloads.ALL).then((list) => list.getAll())
        .then((all) => all.filter((one) => one.succeeded).map((one) => one.target.path));`;

/** The protocol's messages on a socket. */
function protocolOf(/** @type {net.Socket} */ socket) {
    const waiting = makeWaiting();
    let gathered = Buffer.alloc(0);
    socket.on('close', () => waiting.end('Firefox has ended'));
    socket.on('error', () => {}); // 'close' follows
    socket.on('data', (some) => {
        gathered = Buffer.concat([gathered, some]);
        for (let end = gathered.indexOf(COLON); end >= 0; end = gathered.indexOf(COLON)) {
            const behind = end + 1 + Number(gathered.subarray(0, end));
            if (gathered.length < behind) return;
            const [, number, error, answer] = [JSON.parse(gathered.subarray(end + 1, behind).toString())].flat();
            gathered = gathered.subarray(behind);
            if (error) waiting.refuse(number, `${error.error}: ${error.message}`);
            else waiting.answer(number, answer); // the greeting has no number
        }
    });
    return (/** @type {string} */ command, words = {}) => {
        const { number, answer } = waiting.next();
        const message = JSON.stringify([0, number, command, words]);
        socket.write(`${Buffer.byteLength(message)}:${message}`);
        return answer;
    };
}

/** The port that a browser has taken. */
async function portOf(/** @type {string} */ folder, /** @type {Promise<never>} */ failed) {
    const file = path.join(folder, 'MarionetteActivePort');
    const read = () => fs.existsSync(file) && Number(fs.readFileSync(file, 'utf8'));
    return Promise.race([until(read, 'the port of Firefox'), failed]);
}

/** Starts a browser with one page. */
export async function startFirefox() {
    const { folder, downloads } = makeFolder();
    const settings = Object.entries(settingsOf(downloads))
        .map(([name, value]) => `user_pref(${JSON.stringify(name)}, ${JSON.stringify(value)});\n`);
    fs.writeFileSync(path.join(folder, 'user.js'), settings.join(''));
    const words = ['--headless', '--marionette', '--remote-debugging-port', '0', '--remote-allow-system-access',
        '--no-remote', '--profile', folder];
    const env = { ...process.env, HOME: folder, LC_ALL: 'C.UTF-8', MOZ_HEADLESS_WIDTH: String(ROOM.width),
        MOZ_HEADLESS_HEIGHT: String(ROOM.height) };
    const started = spawn('firefox-esr', words, { stdio: 'ignore', env });
    const failed = new Promise((_, refuse) => started.on('error', refuse));
    const socket = net.connect(await portOf(folder, /** @type {Promise<never>} */ (failed)), '127.0.0.1');
    socket.setNoDelay(true);
    const send = protocolOf(socket);
    const { capabilities } = await send('WebDriver:NewSession', SESSION);
    await send('WebDriver:SetWindowRect', ROOM);

    /** Runs a script in the browser's own window. */
    async function inside(/** @type {string} */ script, /** @type {any[]} */ ...args) {
        await send('Marionette:SetContext', { value: 'chrome' });
        try {
            return (await send('WebDriver:ExecuteScript', { script, args, sandbox: 'system' })).value;
        } finally {
            await send('Marionette:SetContext', { value: 'content' });
        }
    }

    async function value(/** @type {string} */ expression) {
        return (await send('WebDriver:ExecuteScript', { script: `return (${expression});`, args: [] })).value;
    }

    async function elementOf(/** @type {string} */ selector) {
        const { value: found } = await send('WebDriver:FindElement', { using: 'css selector', value: selector });
        return Object.values(found)[0];
    }

    await inside(LISTEN);
    return makeBrowser({
        name: `Firefox ${capabilities.browserVersion}`,
        value,
        async go(url) {
            await send('WebDriver:Navigate', { url });
        },
        async give(selector, file) {
            await send('WebDriver:ElementSendKeys', { id: await elementOf(selector), text: file });
        },
        async press(press) {
            const { driver, isShift, isControl } = pressOf(press);
            const held = [...(isShift ? [SHIFT] : []), ...(isControl ? [CONTROL] : [])];
            const actions = [
                ...[...held, driver].map((key) => ({ type: 'keyDown', value: key })),
                ...[driver, ...held].map((key) => ({ type: 'keyUp', value: key })),
            ];
            await send('WebDriver:PerformActions', { actions: [{ type: 'key', id: 'keyboard', actions }] });
        },
        async type(text) {
            const { value: found } = await send('WebDriver:GetActiveElement');
            await send('WebDriver:ElementSendKeys', { id: Object.values(found)[0], text });
        },
        async click(selector) {
            await send('WebDriver:ElementClick', { id: await elementOf(selector) });
        },
        async resize(width, height, isDark) {
            await inside(RESIZE, width, height, isDark ? 'dark' : 'light');
            await until(() => value(`innerWidth === ${width} && innerHeight === ${height}`), `${width} by ${height}`);
        },
        async speak(language) {
            await inside("Services.prefs.setStringPref('intl.accept_languages', arguments[0])", language);
        },
        async photograph() {
            return Buffer.from((await send('WebDriver:TakeScreenshot', { full: false, hash: false })).value, 'base64');
        },
        async print() {
            return Buffer.from((await send('WebDriver:Print', A4)).value, 'base64');
        },
        arrived: () => inside(ARRIVED),
        async leave() {
            await value("void (location.href = 'about:blank')");
            const asks = () => send('WebDriver:GetAlertText').then(() => true, () => false);
            const isLeft = () => value("location.href === 'about:blank'").catch(() => false);
            const asked = await until(async () => (await asks() ? 'asked' : await isLeft() && 'left'), 'a way out');
            if (asked === 'asked') await send('WebDriver:DismissAlert');
            return asked === 'asked';
        },
        complaints: () => inside('return window.heard'),
        async end() {
            const ended = new Promise((done) => started.on('exit', done));
            send('Marionette:Quit', { flags: ['eForceQuit'] }).catch(() => {});
            await Promise.race([ended, later(5000)]);
            socket.destroy();
            started.kill();
            await Promise.race([ended, later(2000)]);
            fs.rmSync(folder, { recursive: true, force: true, maxRetries: 5 });
        },
    });
}
