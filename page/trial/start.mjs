// Starts each browser as the trials do, asks whether it takes WebAssembly, and prints its name.
//   node page/trial/start.mjs BROWSER...
// BROWSER is chromium or firefox. Status 2 says that one does not start.
import process from 'node:process';
import { start } from './browsers.mjs';

const MODULE = '0, 97, 115, 109, 1, 0, 0, 0'; // the least module

for (const name of process.argv.slice(2)) {
    try {
        const browser = await start(name);
        const isTaken = await browser.value(`WebAssembly.validate(new Uint8Array([${MODULE}]))`);
        await browser.end();
        if (!isTaken) throw new Error('it takes no WebAssembly');
        console.log(browser.name);
    } catch (error) {
        console.error(`start: ${name} does not start (${error.message})`);
        process.exitCode = 2;
    }
}
