// A tree as an indented outline, and refusals and records with the place in the text.
'use strict';
const { KIND, ROWS } = require('./kinds.js');
const { NUMBERS } = require('./numbers.js');
const { offsetOf, sourceOf, treeOf } = require('./read.js');
const { pointed } = require('./source.js');

const WIDEST = 100;

// A text cut to a width.
const cut = (text, width) => (text.length <= width ? text : `${text.slice(0, width - 2)} …`);

// The sign of a row that is told apart by it: its operator or member name.
function signOf(input, row) {
    const marked = (row.kind >= 19 && row.kind <= 26) || row.kind === 16 || row.kind === 46;
    const token = input.tokens[row.mark];
    return marked ? ' ' + input.text.slice(token.start, token.end) : '';
}

// The lines of a row and all below it, the row first: its name at its depth, then its text.
function outline(input, row, depth, lines) {
    lines.push({ name: '  '.repeat(depth) + cut(ROWS[row.kind] + signOf(input, row), 40), text: cut(sourceOf(input, row), WIDEST) });
    row.kids.forEach((kid) => outline(input, kid, depth + 1, lines));
    return lines;
}

// What is usually behind a token that no rule allows.
const WHY = new Map([
    ['const', '; a sheet is one expression and has no statements, functions or classes'],
    ['{', '; a sheet has no blocks and methods: an arrow\'s body is one expression, an object there stands in `( )`'],
    ['=>', '; what stands before it is no list of parameters'],
    ...['new', 'await', 'yield'].map((word) => [word, `; a sheet has no \`${word}\``]),
]);

// What is said of the token where a list is refused with 8: the usual reasons by name.
function unexpected(input, place) {
    const token = input.tokens[place];
    if (!token) {
        return 'the expression is not finished';
    }
    const text = input.text.slice(token.start, token.end);
    const why = WHY.get(text) ?? (token.kind === KIND.RESERVED ? WHY.get('const') : '');
    return `no rule allows \`${cut(text, 30)}\` here${why}`;
}

// A refusal or a record with its place in the text and its sentence.
function told(input, sort, { number, place }) {
    const sentence = sort === 'refusal' && number === 8 ? unexpected(input, place) : NUMBERS[sort][number].says;
    const head = `${sort} ${number} at token ${place}`;
    return input.tokens.length === 0 ? `${input.name}: ${head}\n  ${number}: ${sentence}` : pointed(input.name, input.text, offsetOf(input, place), head, `${number}: ${sentence}`);
}

// What is said against an answer: the refusal, or each record.
function said(input) {
    const { refused, records } = input.answer;
    return refused ? [told(input, 'refusal', refused)] : records.map((record) => told(input, 'record', record));
}

// `1 row`, `2 rows`.
const count = (number, word) => `${number} ${word}${number === 1 ? '' : 's'}`;

// What `show` prints.
function shown(input) {
    const { refused, rows, records, abandoned } = input.answer;
    const spelled = input.bare && input.tokens.length > 0 ? ['A sheet file keeps no names, texts and numbers. Its tokens:', '', input.text, ''] : [];
    if (refused) {
        return [...spelled, ...said(input)].join('\n');
    }
    const lines = outline(input, treeOf(rows), 0, []);
    const width = Math.min(60, Math.max(...lines.map((line) => line.name.length)));
    const head = `${input.name}: read, ${count(rows.length, 'row')}, ${count(records.length, 'record')}, ${count(abandoned, 'abandoned head')}`;
    const tree = lines.map((line) => `${line.name.padEnd(width)}  ${line.text}`);
    return [...spelled, head, '', ...tree, ...said(input).map((record) => '\n' + record)].join('\n');
}

module.exports = { count, said, shown };
