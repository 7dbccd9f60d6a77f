// The rooms of the sheet under one name.
export { COLUMNS, chosen } from './columns.mjs';
export { DOWNLOADS } from './downloads.mjs';
export { sheetOfMessages } from './message-sheet.mjs';
export { HAPPENED, dayAt } from './security.mjs';

/** @typedef {import('./security.mjs').Sheet} Sheet */
