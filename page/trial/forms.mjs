// A line of every call as a person types it: in roubles, per cent, times of the day and names, field by field, in the
// order of the form. Each stands behind those before it in one evening.

/**
 * @typedef {object} Said
 * @property {string} call
 * @property {Record<string, string>} values  What is typed in each field; the others stay as they are.
 * @property {Record<string, string>[]} [rows]
 * @property {string} line  The line that it has to make.
 */

/** @type {Said[]} */
export const FORMS = [
    {
        call: 'admit',
        values: {
            ID: '21', DAY: '3', P1: '100', P2: '100.00', S: '2', TENTATIVE: '6', LOT: '10', H: '1', Q: '3',
            A_UP: '0.1', A_DOWN: '0.05', WAIT: '5', RH1: '2', RH2: '5', RH3: '8', LIQ: '0.5', MIN1: '5', MIN2: '7',
            MIN3: '9', SMAX: '40', XPR: '2', SHIFT: '0.25', PCHMAX: '20', PCLMAX: '20', W: '0.1', U: '60',
            MONITORING: 'yes', ISEWMA: 'yes', UEVENING: '120', AUTOCHANGE: 'yes', EVENINGMAX: '2', USEEXTERNAL: 'no',
        },
        line: 'admit 21 3 1000000 1000000 20000 600 10 100 300 1000 500 5 2 5 8 50 500 700 900 4000 200 25 2000 2000 ' +
            '1000 60 1 1 120 1 2 0',
    },
    {
        call: 'interest',
        values: {
            B: '0', YM: '0', YN: '1', A_UP: '0.1', A_DOWN: '0.05', Q: '2', H: '0.5', WAIT: '2', LIQ: '0.2', MM: '3',
            SEC: '1', XIR: '2', MONEY: '9.4', SECRATE: '7.1',
        },
        rows: [
            { T: '1', R: '8', R1: '6.5', R2: '7', INDEX: '8.1', VOLATILITY: '0.4', TENTATIVE: '1.5', AGE: '1' },
            { T: '3', R: '8.03', R1: '6.52', R2: '7', INDEX: '11.5', VOLATILITY: '0.4', TENTATIVE: '1.5', AGE: '1' },
        ],
        line: 'interest 0 0 1 1000 500 200 50 2 20 300 100 200 940 710 1 800 650 700 810 40 150 1 ' +
            '3 803 652 700 1150 40 150 1',
    },
    {
        call: 'evaluate',
        values: { ID: '21', DAY: '4', B: '0', M: '0', K0: '1', PAIR0: '0/1', K1: '2', RRCL1: '-0.3', RRCH1: '19.5',
            K2: '0', RRCL2: '0', RRCH2: '0' },
        rows: [
            { T: '0', RC: '1', REPO: '0', CLOSE: '103', BID: '', ASK: '', VOLUME: '5' },
            { T: '1', RC: '1', REPO: '7.3', CLOSE: '103', BID: '102.95', ASK: '103.05', VOLUME: '12' },
        ],
        line: 'evaluate 21 4 0 0 1 0/1 2 -30 1950 0 0 0 0 10000 0 1030000 0 0 5 1 10000 730 1030000 1029500 1030500 12',
    },
    {
        call: 'quote',
        values: { ID: '21', SECOND: '10:00:10', TERM: '0', BID: '107', ASK: '' },
        line: 'quote 21 36010 0 1070000 0',
    },
    { call: 'move', values: { ID: '21', SIDE: 'upper' }, line: 'move 21 0' },
    { call: 'open', values: { ID: '21' }, line: 'open 21' },
    {
        call: 'outside',
        values: { ID: '21', BIDBITS: '99.5', ASKBITS: '103.25' },
        line: 'outside 21 4636702106982547456 4636965989773213696',
    },
    {
        call: 'notice',
        values: { ID: '21', SIDE: 'ask', BITS: '100.03125' },
        line: 'notice 21 1 4636739490377891840',
    },
    { call: 'withdraw', values: { ID: '21' }, line: 'withdraw 21' },
    { call: 'read', values: { ID: '21' }, line: 'read 21' },
    {
        call: 'bond',
        values: {
            M: '0', NET: '98.5', FACE: '1000', ACCRUED: '12.34', REPO: '7', S: '3', TENTATIVE: '8', AGE: '2',
            K0: '1', PAIR0: '0/1', K1: '2', RRCL1: '6.4', RRCH1: '9.52', K2: '7', RRCL2: '0', RRCH2: '0',
            H: '1', Q: '3', WAIT: '5', RH1: '2', RH2: '5', RH3: '8', LIQ: '0.5', MIN1: '5', MIN2: '7', MIN3: '9',
            SMAX: '40', XPR: '2', PCHMAX: '25', PCLMAX: '25', MONITORING: 'yes', ISEWMA: 'yes',
        },
        rows: [{ DAY: '2', AMOUNT: '35' }],
        line: 'bond 0 9850 10000000 123400 700 30000 800 2 1 0/1 2 640 952 7 0 0 100 300 5 2 5 8 50 500 700 900 4000 ' +
            '200 2500 2500 1 1 2 350000',
    },
];
