// Long work in steps, so that the browser can draw and listen between them.

const TURN = 40; // milliseconds, after which the browser is to have its turn

/** A breath is taken between two steps; it takes time only where a turn's time is over. */
export function makeBreath() {
    let since = performance.now();
    return async () => {
        if (performance.now() - since < TURN) return;
        await new Promise((done) => { setTimeout(done); });
        since = performance.now();
    };
}
