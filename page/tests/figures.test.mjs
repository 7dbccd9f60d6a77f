// Figures are shown and written with all their digits, in the reader's grouping.
import assert from 'node:assert/strict';
import { test } from 'node:test';
import { makeFigures, placesOf, plain } from '../figures.mjs';

const english = makeFigures('en');

test('prices, rates and volatilities', () => {
    assert.equal(english.roubles(306000100), '30,600.01');
    assert.equal(english.roubles(1003130), '100.313');
    assert.equal(english.roubles(1030000, 3), '103.000');
    assert.equal(english.roubles(1), '0.0001');
    assert.equal(english.roubles(2020000000000), '202,000,000.00');
    assert.equal(english.perCent(-730), '−7.30 %');
    assert.equal(english.perCent(5), '0.05 %');
    assert.equal(english.volatility(21214), '2.1214 %');
    assert.equal(english.whole(21214), '21,214');
    assert.equal(english.roubles(null), '–');
    assert.equal(english.perCent(undefined), '–');
    assert.deepEqual([placesOf([]), placesOf([1030000]), placesOf([1003130, 1]), placesOf([10, 100])], [2, 2, 4, 3]);
});

test('the reader’s own grouping', () => {
    assert.equal(makeFigures('de').roubles(306000100), '30.600,01');
    assert.equal(makeFigures('en-IN').whole(12345678), '1,23,45,678');
});

test('a change is to the nearest hundredth of a per cent', () => {
    assert.equal(english.change(1030000, 1000000), '+3.00 %');
    assert.equal(english.change(1000000, 1030000), '−2.91 %');
    assert.equal(english.change(1000000, 1000000), '0.00 %');
    assert.equal(english.change(1000000, null), '–');
});

test('fractions', () => {
    assert.equal(english.fraction({ over: 60001n, under: 3n }), '20,000 + 1/3');
    assert.equal(english.fraction({ over: 6n, under: 9n }), '2/3');
    assert.equal(english.fraction({ over: 0n, under: 9n }), '0');
    assert.equal(english.places({ over: 60001n, under: 3n }), '20,000.333…');
    assert.equal(english.places({ over: 1n, under: 4n }), '0.25');
});

test('for files: a point, no grouping, every place', () => {
    assert.equal(plain(306000100, 4), '30600.0100');
    assert.equal(plain(-5, 2), '-0.05');
    assert.equal(plain(21214, 0), '21214');
});
