// The kinds of kinds.txt.
'use strict';
const fs = require('fs');
const path = require('path');

// The lines of a part of the list: number, name, texts.
function part(name) {
  const text = fs.readFileSync(path.join(__dirname, 'kinds.txt'), 'utf8');
  const lines = text.split(/^([a-z]+)$/m);
  return lines[lines.indexOf(name) + 1].trim().split('\n').map((line) => line.split(' ')).map(([number, word, ...texts]) => ({ kind: Number(number), name: word, texts }));
}

const TOKENS = part('tokens');

// The kind of a token by its name, the texts of a kind, and the kind of a text.
const KIND = Object.fromEntries(TOKENS.map(({ kind, name }) => [name, kind]));
const TEXTS = new Map(TOKENS.map(({ kind, texts }) => [kind, texts]));
const KIND_OF = new Map(TOKENS.flatMap(({ kind, texts }) => texts.map((text) => [text, kind])));

// The names of rows by their kinds, in capitals and small letters: `ShorthandInit`.
const ROWS = Object.fromEntries(part('rows').map(({ kind, name }) => [kind, name.replace(/([A-Z])([A-Z]*)_?/g, (_, first, more) => first + more.toLowerCase())]));

module.exports = { KIND, KIND_OF, ROWS, TEXTS };
