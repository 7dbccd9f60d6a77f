// A line goes into a form and comes back; a form's evening is answered as the text's is; refusals name their fields.
import assert from 'node:assert/strict';
import { test } from 'node:test';
import { callOf } from '../fields.mjs';
import { emptyForm, fieldsOf, formOf, lineOf, sentenceOf } from '../lines.mjs';
import { placeOf, spanOf } from '../places.mjs';
import { inWords, refusals, refusedOf } from '../refusals.mjs';
import { answersTo, example } from './ask.mjs';

const examples = ['evening.txt', 'cases.txt', 'why.txt'];
const HALF_A_FLOW = 79; // of evening.txt: no form has it
const Z = '10 100 300 1000 500 5 2 5 8 50 500 700 900 4000 200 25 2000 2000 1000 60 1 1 120 1 2 0';
const admitted = `admit 7 3 1000000 1000000 20000 600 ${Z}`;

/** The form of a line, which is a call. */
function form(line) {
    const read = formOf(line);
    assert.ok('call' in read, `${line}: ${read.fault}`);
    return read;
}

const throughForm = (line) => {
    const { call, form: values } = form(line);
    return lineOf(call, values);
};

for (const name of examples) {
    test(`every call of ${name} goes into a form and back`, () => {
        const lines = example(name);
        const answers = answersTo('evening', lines);
        lines.forEach((line, at) => {
            const noForm = answers[at].startsWith('bad') || (name === 'evening.txt' && at + 1 === HALF_A_FLOW);
            if (noForm) assert.ok('fault' in formOf(line), line);
            else assert.equal(throughForm(line).line, line);
        });
    });

    test(`the accepted calls of ${name} have no fault, and those refused for a number have one`, () => {
        const lines = example(name);
        answersTo('evening', lines).forEach((answer, at) => {
            if (answer.startsWith('bad') || (name === 'evening.txt' && at + 1 === HALF_A_FLOW)) return;
            const { faults } = throughForm(lines[at]);
            const verdict = answer.split(' ')[0];
            if (verdict === '0') assert.deepEqual(faults, [], lines[at]);
            if (['4', '14', '16', '17', '20'].includes(verdict)) assert.notDeepEqual(faults, [], lines[at]);
        });
    });

    test(`the evening of ${name}, made from forms, is answered as the text is`, () => {
        const calls = example(name).filter((line) => 'call' in formOf(line));
        const made = calls.map((line) => throughForm(line).line);
        assert.deepEqual(answersTo('evening', made), answersTo('evening', calls));
    });
}

test('typed values become a line', () => {
    const values = {
        ID: '7', DAY: '4', B: '0', M: '0', K0: '1', PAIR0: '0/1', RRCL0: '', RRCH0: '', K1: '2', PAIR1: '',
        RRCL1: '-7.3', RRCH1: '14.60', K2: '0', PAIR2: '', RRCL2: '0', RRCH2: '0',
    };
    const rows = [{ T: '0', RC: '12.5', REPO: '0.25', CLOSE: '8.1', BID: '', ASK: '', VOLUME: '8' }];
    assert.deepEqual(lineOf(callOf('evaluate'), { values, rows }), {
        line: 'evaluate 7 4 0 0 1 0/1 2 -730 1460 0 0 0 0 125000 25 81000 0 0 8',
        faults: [],
    });
    const outside = { values: { ID: '18', BIDBITS: '99.5', ASKBITS: '103.25' }, rows: [] };
    assert.equal(lineOf(callOf('outside'), outside).line, 'outside 18 4636702106982547456 4636965989773213696');
    const quote = { values: { ID: '7', SECOND: '10:00:10', TERM: '0', BID: '106.297', ASK: '' }, rows: [] };
    assert.equal(lineOf(callOf('quote'), quote).line, 'quote 7 36010 0 1062970 0');
    assert.equal(lineOf(callOf('move'), { values: { ID: '7', SIDE: 'lower' }, rows: [] }).line, 'move 7 1');
});

test('an empty form has a fault for each field that must be filled, and no line', () => {
    const { line, faults } = lineOf(callOf('admit'), emptyForm(callOf('admit')));
    assert.equal(line, undefined);
    assert.equal(faults.length, 32);
    assert.equal(sentenceOf(faults[2]), 'Latest evaluation (P1) is missing.');
});

test('what several fields owe to each other is refused by field', () => {
    const faultsOf = (line) => throughForm(line).faults.map((fault) => sentenceOf(fault));
    const with1 = (from, to) => admitted.replace(from, to);
    assert.deepEqual(faultsOf(with1(' 2 5 8 ', ' 2 1 8 ')), ['Horizon 2 (RH2) must not be below RH1.']);
    assert.deepEqual(faultsOf(with1(' 500 700 ', ' 550 700 ')), [
        'Least rate 1 (MIN1) must be a multiple of the step H.',
    ]);
    assert.deepEqual(faultsOf(with1('1000000 1000000', '1000005 1000000')), [
        'Latest evaluation (P1) must have at most two decimals for a lot of 1, three for 2 to 10, four for more.',
    ]);
    assert.equal(faultsOf(with1(' 600 ', ' 100000 ')).length, 0);
    assert.match(faultsOf(with1(' 600 ', ' 100100 '))[0], /^Tentative rate \(TENTATIVE\) must not be above/);
    const day = 'evaluate 7 4 0 0 0 0 0 0 0 0 0 0 0';
    assert.deepEqual(faultsOf(`${day} 0 10000 0 5 0 0 1 0 10000 0 0 7 6 1`), [
        'Row 2: Bid (BID) must not be above ASK in one row.',
        'Row 2: Volume (VOLUME) must be 0 where CLOSE is missing.',
    ]);
    assert.deepEqual(faultsOf('evaluate 7 4 0 0 0 1 0 0 2/1 0 0 0'), [
        'Upper repo limit 0 (RRCH0) must not be below RRCL0.',
        'Pair of term 1 (PAIR1) must have the lesser term first.',
    ]);
    assert.equal(faultsOf(day + ' 0 10000 0 5 0 0 1'.repeat(16)).length, 0);
    assert.deepEqual(faultsOf(day + ' 0 10000 0 5 0 0 1'.repeat(17)), [
        'Row must stand 0 to 16 times, and stands 17 times.',
    ]);
});

test('a line that is no call has no form, in words', () => {
    assert.deepEqual(formOf('hello'), { fault: "'hello' is no call." });
    assert.deepEqual(formOf(' \t'), { fault: 'The line is blank.' });
    assert.deepEqual(formOf(' # read 7'), { fault: 'The line is a heading, which has no form.' });
    assert.deepEqual(formOf('read 7 8'), { fault: "'read' takes no further '8'." });
    assert.deepEqual(formOf('evaluate 7 4 0 0 0 0 0 0 0 0 0 0 0 1 2'), { fault: 'Row 1 is not whole.' });
    assert.ok('fault' in formOf('quote 7 36000 0 1000000/0'));
});

test('every number of a refusal is in words', () => {
    assert.equal(refusals.length, 26);
    refusals.slice(1).forEach(({ text, todo }) => assert.ok(text !== '' && todo !== ''));
    assert.equal(inWords(16), 'a row has its bid above its ask');
    assert.equal(inWords(99), 'refused 99');
    assert.equal(placeOf({ row: 3 }), 'row 3');
    assert.equal(placeOf({ term: 0 }), 'term 0');
    assert.equal(placeOf({ field: 1 }), 'Security (ID), number 1 of the line');
    assert.equal(placeOf({ field: 32 }), 'Outside prices (USEEXTERNAL), number 32 of the line');
    assert.equal(placeOf({}), '');
});

test('an answer says what is refused, and where', () => {
    const place = ({ number, row, term, field, line, offset }) => ({ number, row, term, field, line, offset });
    const none = place({});
    const said = (answer) => place(refusedOf(answer));
    assert.equal(refusedOf('0 0 0'), undefined);
    assert.equal(refusedOf('0 price close'), undefined);
    assert.deepEqual(said('6 row 3'), { ...none, number: 6, row: 3 });
    assert.deepEqual(said('9 term 0'), { ...none, number: 9, term: 0 });
    assert.deepEqual(said('4 field 32'), { ...none, number: 4, field: 32 });
    assert.deepEqual(said('5 none'), { ...none, number: 5 });
    assert.deepEqual(said('5'), { ...none, number: 5 });
    assert.deepEqual(said('bad 26'), { ...none, line: 26 });
    assert.deepEqual(said('15 0'), { ...none, number: 15, line: 0 });
    assert.deepEqual(said('refused 21 98'), { ...none, number: 21, offset: 98 });
});

test('a refusal of why names the fields of its row or term', () => {
    const day = 'evaluate 7 4 0 0 0 0 0 0 0 0 0 0 0';
    const good = ' 0 10000 0 1000000 0 0 5';
    const about = (line) => {
        const answer = answersTo('why', [admitted, line])[1];
        const { call, form: values } = form(line);
        const fields = fieldsOf(refusedOf(answer), call, values);
        return fields.map(({ name, row }) => row === undefined ? name : `${row} ${name}`);
    };
    assert.deepEqual(about(`${day}${good} 31 10000 0 1000000 0 0 5`), ['2 T']);
    assert.deepEqual(about(`${day}${good} 0 10000 0 1000000 1010000 1000000 5`), ['2 BID']);
    assert.deepEqual(about(`${day}${good} 0 1 0 1 0 0 5`), ['2 RC', '2 CLOSE', '2 BID', '2 ASK', '2 VOLUME']);
    assert.deepEqual(about('evaluate 7 4 0 0 0 0 0 0 1 0 0 0 0'), ['RRCH1']);
    assert.deepEqual(about('evaluate 7 4 0 0 0 0 0 0 0 0 1 0/1'), ['PAIR2']);
    assert.deepEqual(about('evaluate 7 4 31 0 0 0 0 0 0 0 0 0 0'), ['B']);
    assert.deepEqual(about('evaluate 7 3 0 0 0 0 0 0 0 0 0 0 0'), ['DAY']);
    assert.deepEqual(about('evaluate 8 4 31 0 0 0 0 0 0 0 0 0 0'), ['ID']);
    assert.deepEqual(about(admitted), ['ID']);
});

test('an admission that is refused 4 names the field that why names first, with its range', () => {
    const put = (others) => Object.assign(admitted.split(' '), others).join(' ');
    const about = (others) => {
        const line = put(others);
        const answer = answersTo('why', [line])[0];
        const { call, form: values } = form(line);
        const faults = fieldsOf(refusedOf(answer), call, values);
        return [answer, ...faults.map((fault) => sentenceOf({ ...fault, label: fault.name }))];
    };
    assert.deepEqual(about({ 7: '101' }), ['4 field 7', 'LOT must be from 1 to 100 pieces.']);
    assert.deepEqual(about({ 14: '1' }), ['4 field 14', 'RH2 must not be below RH1; its range is 1 to 30 days.']);
    // A number out of its range comes first, wherever it stands; the page marks what else it finds.
    assert.deepEqual(about({ 18: '400', 32: '2' }), [
        '4 field 32', 'USEEXTERNAL must be no or yes.', 'MIN2 must not be below MIN1.',
    ]);
    // What the program names is named, whatever the page's own list says.
    const { call, form: values } = form(admitted);
    assert.deepEqual(fieldsOf(refusedOf('4 field 3'), call, values), [
        { name: 'P1', text: 'must be from 0.0001 to 1000000 roubles', range: undefined },
    ]);
});

test('each number of an admission that is out of its range is named, with its own words and its place', () => {
    const words = admitted.split(' ');
    const wrong = words.map((word, at) => Object.assign([...words], { [at]: '-1' }).join(' ')).slice(1);
    answersTo('why', wrong).forEach((answer, at) => {
        assert.equal(answer, `4 field ${at + 1}`);
        const { call, form: values } = form(wrong[at]);
        const [first, ...more] = fieldsOf(refusedOf(answer), call, values);
        assert.equal(first.name, call.fields[at].name);
        assert.match(first.text, /^must be /);
        assert.deepEqual(more, []);
        const { start, end } = spanOf(wrong[at], [first]);
        assert.equal(wrong[at].slice(start, end), '-1');
    });
});

test('a place is a part of the line: a number, a row or a term, with pairs and blanks between', () => {
    const line = 'evaluate  7 4 0 0\t1 0/1 2 -30 1950 3 5 6  0 10000 0 8 0 0 5   1 10001 0 9 0 0 6';
    const part = (...marks) => {
        const span = spanOf(line, marks);
        return span === null ? null : line.slice(span.start, span.end);
    };
    assert.equal(part({ name: 'ID' }), '7');
    assert.equal(part({ name: 'PAIR0' }), '0/1');
    assert.equal(part({ name: 'K0' }, { name: 'RRCL0' }, { name: 'RRCH0' }), '1');
    assert.equal(part({ name: 'RRCL1' }, { name: 'RRCH1' }), '-30 1950');
    assert.equal(part({ name: 'PAIR1' }), null);
    assert.equal(part({ name: 'VOLUME', row: 1 }), '5');
    assert.equal(part({ name: 'T', row: 2 }, { name: 'RC', row: 2 }), '1 10001');
    assert.equal(part({ name: 'T', row: 3 }), null);
    assert.equal(part(), null);
    assert.equal(spanOf('hello 7', [{ name: 'ID' }]), null);
});
