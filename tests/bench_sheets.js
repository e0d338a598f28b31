// Holds the sheets of bench/harness/sheets to JavaScript: each is an expression for V8, and the tokens that the harness sees are those of tools/sheet.
//
//     target/harness/release/sheets | node tests/bench_sheets.js       tests/archive.sh builds `sheets`
'use strict';
const fs = require('fs');
const path = require('path');
const { tokensOf } = require('../tools/desk/pack.js');

const folder = path.join(__dirname, '../bench/harness/sheets');
const hex = (bytes) => Buffer.from(bytes).toString('hex');

// The line of `sheets` for the text of a file.
function lineOf(name) {
  const text = fs.readFileSync(path.join(folder, name), 'utf8');
  new Function(`return (${text}\n)`);
  const tokens = tokensOf(name, text);
  return `real sheets\tr ${hex(tokens.map(({ kind }) => kind))} ${hex(tokens.map(({ flag }) => flag))}`;
}

const seen = new Set(fs.readFileSync(0, 'utf8').split('\n').filter((line) => line.startsWith('real sheets\t')));
const files = fs.readdirSync(folder);
const unlike = files.filter((name) => !seen.delete(lineOf(name)));
if (unlike.length > 0 || seen.size > 0) {
  console.error(`the harness sees other tokens: ${unlike.join(', ') || 'it has a sheet more'}`);
  process.exit(1);
}
console.log(`${files.length} sheets are JavaScript`);
