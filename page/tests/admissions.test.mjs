// Admissions from a file: columns by name in any order, values as in the form, faults by row and column.
import assert from 'node:assert/strict';
import { test } from 'node:test';
import { admissionsOf as admissionsIn, admissionsText, columnsOfAdmissions, letterOf } from '../admissions.mjs';
import { makeDesk } from '../desk.mjs';
import { formOf } from '../lines.mjs';
import { answersTo, example } from './ask.mjs';
import { programs } from './release.mjs';

const desk = makeDesk(programs);
const admissionsOf = (text) => admissionsIn(text, desk.ask);

const accepted = (() => {
    const lines = example('evening.txt');
    const answers = answersTo('evening', lines);
    return lines.filter((line, at) => line.startsWith('admit') && answers[at] === '0');
})();
const file = admissionsText(accepted.map((line) => formOf(line).form.values));
const rows = file.split('\r\n').slice(0, -1).map((line) => line.split(','));
const text = (table, separator = ',', end = '\n') => table.map((cells) => cells.join(separator) + end).join('');
const place = (name) => rows[0].findIndex((cell) => cell.split(' ')[0] === name);

test('the template reads back, and has no admission', async () => {
    assert.equal(admissionsText([]), `${columnsOfAdmissions()}\r\n`);
    assert.deepEqual(await admissionsOf(admissionsText([])), { admissions: [], faults: [] });
    assert.match(columnsOfAdmissions(), /^ID,DAY,P1 \(roubles\),.*,MONITORING \(no\/yes\),.*,USEEXTERNAL \(no\/yes\)$/);
});

test('the admissions of the example evening are written and read back', async () => {
    const { admissions, faults } = await admissionsOf(file);
    assert.deepEqual(faults, []);
    assert.deepEqual(admissions.map(({ line }) => line), accepted);
    assert.ok(accepted.length >= 8);
});

test('columns may stand in any order, without units, in quotes, and parted by semicolons', async () => {
    const turned = rows.map((cells) => [...cells].reverse());
    const plain = [rows[0].map((cell) => cell.split(' ')[0].toLowerCase()), ...rows.slice(1)];
    const quoted = rows.map((cells) => cells.map((cell) => ` "${cell}" `));
    for (const other of [text(turned), text(plain), text(quoted), text(rows, ';', '\r\n'), `\uFEFF${text(rows)}\n`]) {
        assert.deepEqual((await admissionsOf(other)).admissions.map(({ line }) => line), accepted);
    }
});

test('a comma is the point in a file that is parted by semicolons, and only there', async () => {
    const comma = rows.map((cells, at) => (at === 0 ? cells : cells.map((cell) => cell.replace('.', ','))));
    assert.notDeepEqual(comma, rows);
    assert.deepEqual((await admissionsOf(text(comma, ';'))).admissions.map(({ line }) => line), accepted);
    const quoted = comma.map((cells) => cells.map((cell) => `"${cell}"`));
    assert.deepEqual((await admissionsOf(text(quoted))).admissions.length, 0);
    const two = comma.map((cells) => [...cells]);
    two[1][place('P1')] = '1,000,000';
    assert.deepEqual((await admissionsOf(text(two, ';'))).faults, [
        { at: 2, column: 'C, P1', text: 'Latest evaluation (P1) must be digits, with at most one point.' },
    ]);
});

test('columns that are unknown, missing or double are refused by name', async () => {
    const without = rows.map((cells) => cells.filter((_, at) => at !== place('LOT')));
    assert.deepEqual(await admissionsOf(text(without)), {
        admissions: [],
        faults: [{ at: 1, text: "The column 'LOT' is missing." }],
    });
    const more = rows.map((cells, at) => [...cells, at === 0 ? 'COLOUR' : 'red']);
    assert.deepEqual((await admissionsOf(text(more))).faults, [{ at: 1, text: "There is no column 'COLOUR'." }]);
    const twice = rows.map((cells) => [...cells, cells[0]]);
    assert.deepEqual((await admissionsOf(text(twice))).faults, [{ at: 1, text: "The column 'ID' stands twice." }]);
    assert.equal((await admissionsOf('')).faults.length, 33);
});

test('a bad row is refused by row and column, and the others are taken', async () => {
    const table = rows.map((cells) => [...cells]);
    table[1][place('P1')] = '';
    table[2][place('LOT')] = '101';
    table[3] = table[3].slice(1);
    table[4][place('ID')] = '';
    table[5][place('ID')] = '"12"3';
    const { admissions, faults } = await admissionsOf(text(table));
    assert.deepEqual(admissions.map(({ line }) => line), accepted.slice(5));
    assert.deepEqual(faults, [
        { at: 2, column: 'C, P1', text: 'Latest evaluation (P1) is missing.' },
        { at: 3, column: 'G, LOT', text: 'Lot (LOT) must be from 1 to 100 pieces.' },
        { at: 4, text: 'The row has 31 cells, and there are 32 columns.' },
        { at: 5, column: 'A, ID', text: 'Security (ID) is missing.' },
        { at: 6, column: 'A, ID', text: 'Security (ID) must be a whole number, in digits alone.' },
    ]);
});

test('the number that the program names is the column, wherever it stands in the file', async () => {
    const turned = rows.map((cells) => [...cells].reverse());
    turned[1][31 - place('MIN2')] = '4';
    turned[2][31 - place('USEEXTERNAL')] = '2';
    turned[2][31 - place('P1')] = '100.005';
    assert.deepEqual((await admissionsOf(text(turned))).faults, [
        {
            at: 2, column: 'O, MIN2',
            text: 'Least rate 2 (MIN2) must not be below MIN1; its range is 0 to 100 per cent.',
        },
        { at: 3, column: 'A, USEEXTERNAL', text: 'Outside prices (USEEXTERNAL) must be no or yes.' },
        {
            at: 3, column: 'AD, P1',
            text: 'Latest evaluation (P1) must have at most two decimals for a lot of 1, three for 2 to 10, four for ' +
                'more.',
        },
    ]);
});

test('what the page’s own list takes and the program does not is refused as the program says', async () => {
    const refused = { accepted: false, refused: { number: 4, field: 8 }, faults: [{ name: 'H', text: 'no' }] };
    const refusing = async (lines) => (
        (await desk.ask(lines)).map((heard, at) => (at > 0 ? heard : { ...heard, ...refused })));
    const { admissions, faults } = await admissionsIn(file, refusing);
    assert.deepEqual(admissions.map(({ line }) => line), accepted.slice(1));
    assert.deepEqual(faults, [{ at: 2, column: 'H, H', text: 'Step (H) no.' }]);
});

test('a security that stands twice in a file is admitted once', async () => {
    const { admissions, faults } = await admissionsOf(text([...rows.slice(0, 2), rows[1]]));
    assert.deepEqual(faults, []);
    assert.deepEqual(admissions.map(({ at, heard }) => [at, heard.accepted, heard.answer]), [
        [2, true, '0'], [3, false, '2'],
    ]);
});

test('columns have the letters of a spreadsheet', () => {
    assert.deepEqual([0, 25, 26, 31, 701, 702].map(letterOf), ['A', 'Z', 'AA', 'AF', 'ZZ', 'AAA']);
});
