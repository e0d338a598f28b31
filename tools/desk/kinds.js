// The kinds of tokens and of rows, as the tools say and spell them.
'use strict';
const { KIND, KIND_OF, ROWS: NAMES, TEXTS } = require('../../readers/kinds.js');

// How a token is spelled of which only the kind is known and that can have many texts. Names, texts and numbers are not kept in a sheet file.
const SPELLING = new Map([
    [KIND.IDENT, 'name'], [KIND.STR, '"text"'], [KIND.NUMBER, '0'], [KIND.REG_EXP, '/re/'], [KIND.MODIFIER, 'static'], [KIND.RESERVED, 'class'],
]);

// The text of a kind; a byte that is no kind is shown as its number.
const spell = (kind) => SPELLING.get(kind) ?? TEXTS.get(kind)?.[0] ?? `<kind ${kind}>`;

// Whether an operand can end with a token of this kind that is no member name: then a `/` after it divides.
const endsOperand = (kind) => kind <= 5 || (kind >= 7 && kind <= 15) || kind === 19 || kind === 21 || kind === 23;

// The names of the rows.
const ROWS = Object.fromEntries(Object.entries(NAMES).map(([kind, name]) => [kind, name.replace('RestComma', ', comma after its spread')]));

module.exports = { KIND, KIND_OF, ROWS, endsOperand, spell };
