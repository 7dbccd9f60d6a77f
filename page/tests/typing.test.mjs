// Numbers as a reader types them, in the grouping and with the decimal mark of her language.
import assert from 'node:assert/strict';
import test from 'node:test';
import { makeTyping } from '../view-typing.mjs';

const CASES = [
    // language, typed, what the fields' kinds read
    ['en-US', '1,234,567.5', '1234567.5'],
    ['en-US', '1234567.5', '1234567.5'],
    ['en-US', '-1,000', '-1000'],
    ['en-US', '1,50', '1,50'], // no group: the kinds refuse it
    ['en-US', '12,34', '12,34'],
    ['en-IN', '12,34,567.5', '1234567.5'],
    ['de-DE', '1.234,5', '1234.5'],
    ['de-DE', '103,25', '103.25'],
    ['de-DE', '103.25', '103.25'], // a point is taken too, where it is no group
    ['ru-RU', '1\u00a0234,5', '1234.5'],
    ['ru-RU', '1 234,5', '1234.5'],
    ['fr-FR', '1\u202f234,5', '1234.5'],
    ['en-US', ' 7 ', '7'],
    ['de-DE', '0/1', '0/1'], // a pair, a time, a name and bits stay as they are
    ['de-DE', '19:05:30', '19:05:30'],
    ['de-DE', 'bits 4636965989773213696', 'bits 4636965989773213696'],
    ['en-US', 'yes', 'yes'],
    ['en-US', '', ''],
];

test('a typed number is read in the grouping of its language', () => {
    for (const [language, typed, plain] of CASES) {
        assert.equal(makeTyping(language).plain(typed), plain, `${language}: ${typed}`);
    }
});

test('a value that is shown is read back as it was', () => {
    for (const language of ['en-US', 'en-IN', 'de-DE', 'ru-RU', 'fr-FR', 'de-CH', 'ar-EG', 'fa-IR']) {
        const { plain, shown } = makeTyping(language);
        for (const value of ['0', '7', '-0.01', '1234567', '1234.5678', '0.0001', '-99.99', '1.234', '0/1', '10:00:00']) {
            assert.equal(plain(shown(value)), value, `${language}: ${value}`);
        }
    }
});

test('the numbers of a range are grouped, and those of a time are not', () => {
    assert.equal(makeTyping('en-US').range('0.0001 to 1000000 roubles'), '0.0001 to 1,000,000 roubles');
    assert.equal(makeTyping('de-DE').range('-99.99 to 99.99 per cent'), '-99,99 to 99,99 per cent');
    assert.equal(makeTyping('en-US').range('00:00:00 to 23:59:59'), '00:00:00 to 23:59:59');
});
