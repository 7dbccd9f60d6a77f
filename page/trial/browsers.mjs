// The browsers that the page is tried in, each by the name that a command gives it.
import { startChromium } from './chromium.mjs';
import { startFirefox } from './firefox.mjs';

const START = { chromium: startChromium, firefox: startFirefox };

/** Starts a browser. @returns {Promise<import('./browser.mjs').Browser>} */
export function start(/** @type {string} */ name) {
    const known = START[/** @type {keyof typeof START} */ (name)];
    return known === undefined ? Promise.reject(new Error('there is no such browser')) : known();
}
