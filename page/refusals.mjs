// The refusals' numbers in words, with what to do: the one list of the page (document 01, "Numbers a member may see",
// and document 02), and what a refused answer of a program says.

/**
 * @typedef {object} Refusal
 * @property {string} text  What is refused.
 * @property {string} todo  What to do.
 * @property {string[]} [fields]  The fields that it is about, where the number says which.
 */

const GET_AGAIN = 'get the file again; what was read before it stays';

/** By number, from 0 on. @type {Refusal[]} */
export const refusals = [
    { text: 'done', todo: '' },
    { text: 'there is no security with this id', todo: 'look at the id, or admit the security first', fields: ['ID'] },
    { text: 'this id is admitted already', todo: 'look at the id; an admission cannot be changed', fields: ['ID'] },
    { text: 'the table has no empty slot', todo: 'an evening has room for 512 securities' },
    { text: 'a number of the admission is at fault', todo: 'correct the number that is named' },
    { text: 'the day is not after the last one', todo: 'give a day number above the last one', fields: ['DAY'] },
    { text: 'a number is out of its range', todo: 'correct the field, row or term that is marked' },
    {
        text: 'a price or a volume rounds to nothing, or to more than the desk takes',
        todo: 'look at the prices, the volume and the central rate',
        fields: ['RC', 'CLOSE', 'BID', 'ASK', 'VOLUME', 'NET', 'FACE', 'ACCRUED'],
    },
    { text: 'the move is above 100 per cent', todo: 'look at the prices; a point may be at the wrong place' },
    {
        text: 'the lower limit of a band lies above its upper one',
        todo: 'look at the repo limits of the term and at the farthest limits of the security',
    },
    { text: 'the security is admitted and not evaluated yet', todo: 'evaluate it first', fields: ['ID'] },
    { text: 'the security is not monitored', todo: 'it takes no quotes and no moves', fields: ['ID'] },
    { text: 'this side has been moved fifty times', todo: 'wait for the next evaluation', fields: ['SIDE'] },
    {
        text: 'the second is earlier than that of the last quote',
        todo: 'give the quotes of a security in the order of their times',
        fields: ['SECOND'],
    },
    {
        text: 'the key maturities or the pair of terms do not ascend',
        todo: 'put the key maturities in order, each once, and the lesser term first',
        fields: ['YM', 'YN', 'T'],
    },
    { text: 'a line of the exchange’s text is bad', todo: 'correct the line, or get the text again' },
    { text: 'a row has its bid above its ask', todo: 'two columns may have changed places', fields: ['BID', 'ASK'] },
    { text: 'the face value is 0', todo: 'give the face value', fields: ['FACE'] },
    {
        text: 'no move is allowed in this evening session, or its moves are used up',
        todo: 'wait for the next evaluation',
        fields: ['SIDE'],
    },
    { text: 'the evening session is open already', todo: 'nothing is to be done', fields: ['ID'] },
    {
        text: 'an outside price is no number above zero that the desk takes',
        todo: 'look at what the source sent; the prices that were kept stay',
        fields: ['BIDBITS', 'ASKBITS', 'BITS'],
    },
    { text: 'the message is cut short', todo: GET_AGAIN },
    { text: 'the length is wrong for the message’s kind', todo: GET_AGAIN },
    { text: 'a field of the message is out of its range', todo: GET_AGAIN },
    { text: 'there is no room for the message', todo: 'give the writer a larger buffer' },
    {
        text: 'the end of the broadcast does not fit the messages before it: some are missing, changed or exchanged',
        todo: GET_AGAIN,
    },
];

const NO_CALL = {
    text: 'the line is no call',
    todo: 'look at the first word, and at how many numbers follow it; nothing has changed',
};

/** A refusal in words; a number that the list has not stays a number. */
export function inWords(/** @type {number} */ number) {
    return refusals[number]?.text ?? `refused ${number}`;
}

/**
 * @typedef {object} Refused  What a refused answer says.
 * @property {number} [number]  None where the line is no call.
 * @property {string} text
 * @property {string} todo
 * @property {number} [row]  The row at fault, counted from 1, where `why` names one.
 * @property {number} [term]  The term at fault, 0 to 2, where `why` names one.
 * @property {number} [field]  The number of an admission at fault, counted from 1, where `why` names one.
 * @property {number} [line]  The line at fault, of the exchange's text (0 where it is too long) or of the evening's.
 * @property {number} [offset]  The place in the broadcast's bytes, counted from 0.
 */

/**
 * What an answer of `evening`, `why`, `exchange` or `listen` says of a refusal; nothing where it is none.
 * @param {string} answer
 * @returns {Refused | undefined}
 */
export function refusedOf(answer) {
    const [first, second, third] = answer.trim().split(' ');
    if (first === 'bad') return { ...NO_CALL, line: Number(second) };
    const isHeard = first === 'refused';
    const number = Number(isHeard ? second : first);
    const refusal = refusals[number];
    if (number === 0 || refusal === undefined) return undefined;
    const said = { number, text: refusal.text, todo: refusal.todo };
    if (isHeard) return { ...said, offset: Number(third) };
    if (['row', 'term', 'field'].includes(second)) return { ...said, [second]: Number(third) };
    return second === undefined || second === 'none' ? said : { ...said, line: Number(second) };
}
