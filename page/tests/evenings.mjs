// Evenings made at random for the tests, each the same at every run.

const STATICS = '10 100 300 1000 500 5 2 5 8 50 500 700 900 4000 200 25 2000 2000 1000 60 1 1 120 1 2 1';
const INTEREST = '1000 500 200 50 2 20 300 100 200 940 710';

/** Numbers at random from a seed, each below the one that is named. */
export function chance(seed) {
    let state = seed;
    return (below) => {
        state = (state * 1103515245 + 12345) % 2147483648;
        return Math.floor((state / 2147483648) * below);
    };
}

/** An evaluation of a day; the first term's repo band may be that of a pair. */
export function evaluation(id, day, price, next) {
    const band = next(3) === 0 ? '0/1' : '1200 1900';
    return `evaluate ${id} ${day} ${next(3)} ${next(3)} 1 ${band} 2 -30 1950 0 0 0 0 10000 0 ${price} 0 0 5`;
}

/** What else may be said of a security in a day. */
function sometimes(id, next) {
    const lines = [`move ${id} ${next(2)}`, `open ${id}`, `read ${id}`, `withdraw ${id}`,
        `quote ${id} ${36000 + next(9000)} ${next(3)} ${100000 + next(100000)} 0`,
        `notice ${id} ${next(2)} ${next(2) === 0 ? '4636948397587169280' : '0'}`];
    return next(3) === 0 ? [lines[next(lines.length)]] : [];
}

/**
 * The lines of an evening of some securities over some days: with repo bands by pairs and all other calls of a security
 * among the evaluations, and so with refused lines, unless it is `plain`.
 */
export function makeEvening({ seed, securities, days, plain = false }) {
    const next = chance(seed);
    const ids = Array.from({ length: securities }, (_, at) => 1001 + at);
    const prices = new Map(ids.map((id) => [id, 10 * (1000 + next(100000))]));
    const lines = ids.map((id) => {
        const price = prices.get(id);
        return `admit ${id} 1 ${price} ${price} ${4000 + next(20000)} 600 ${STATICS}`;
    });
    for (let day = 2; day < 2 + days; day += 1) {
        if (!plain) {
            const rate = 600 + next(400);
            lines.push(`interest 0 0 1 ${INTEREST} 1 ${rate} 650 700 810 40 150 1 3 803 652 700 1150 40 150 1`);
        }
        for (const id of ids) {
            const by = (next(2001) - 1000) / (next(20) === 0 ? 4000 : 40000);
            const price = Math.max(10, Math.floor(prices.get(id) * (1 + by)));
            prices.set(id, price);
            lines.push(plain
                ? `evaluate ${id} ${day} ${next(3)} ${next(3)} 0 0 0 1 1200 1900 2 -30 1950 0 10000 0 ${price} 0 0 5`
                : evaluation(id, day, price, next));
            if (!plain) lines.push(...sometimes(id, next));
        }
    }
    return lines;
}
