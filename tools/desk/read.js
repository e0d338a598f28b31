// What the compiled program answers for a sheet, with the text beside it.
'use strict';
const fs = require('fs');
const path = require('path');
const { spawnSync } = require('child_process');
const { fileOf, spelled, tokensOf } = require('./pack.js');
const { Problem, bytesOf, textOf } = require('./source.js');

const PROGRAM = path.join(__dirname, '..', '..', 'crates', 'sheet', 'out', 'sheet');

// One byte more than the longest sheet file has. The program looks no further: a longer file is no sheet's.
const ENOUGH = 8205;

// What the program prints for the bytes of a sheet file.
function ask(bytes) {
    if (!fs.existsSync(PROGRAM)) {
        throw new Problem('crates/sheet/out/sheet is not built yet; this builds it: (cd crates/sheet && rt run -- data/p1.sheet)');
    }
    const run = spawnSync(PROGRAM, [], { input: bytes.subarray(0, ENOUGH), encoding: 'utf8', maxBuffer: 1 << 20 });
    if (run.error || run.status !== 0 || run.stderr !== '') {
        throw new Problem(`crates/sheet/out/sheet failed: ${run.error?.message ?? (run.stderr.trim() || `status ${run.status}`)}`);
    }
    return run.stdout;
}

// The program's answer taken apart: a refusal (number, place), or rows, records and the abandoned count; nothing for a bad file.
function answerOf(printed) {
    const [head, ...lines] = printed.trimEnd().split('\n');
    const [word, ...numbers] = head.split(' ');
    const counts = numbers.map(Number);
    if (word === 'refused') {
        return { refused: { number: counts[0], place: counts[1] } };
    }
    if (word !== 'read') {
        return undefined;
    }
    const table = lines.map((line) => line.split(' ').map(Number));
    const rows = table.slice(0, counts[0]).map(([kind, mark, first, end, kids, size]) => ({ kind, mark, first, end, kids, size }));
    const records = table.slice(counts[0]).map(([number, place]) => ({ number, place }));
    return { rows, records, abandoned: counts[2] };
}

// The rows as a tree: each row with the list of its kids, left to right. A kid's subtree ends where the next one's begins.
function treeOf(rows) {
    const nodes = rows.map((row, number) => ({ ...row, number, kids: [] }));
    rows.forEach((row, number) => {
        let at = number - 1;
        for (let i = 0; i < row.kids; i++) {
            nodes[number].kids.unshift(nodes[at]);
            at -= rows[at].size;
        }
    });
    return nodes[nodes.length - 1];
}

// The text that a sheet file was packed from, if it stands beside it (NAME.js beside NAME.sheet) and packs to the same bytes.
function textBeside(name, bytes) {
    const beside = name.replace(/\.sheet$/, '.js');
    try {
        const input = textInput(beside);
        return beside !== name && input.file.equals(bytes) ? input : undefined;
    } catch {
        return undefined;
    }
}

// A text with its tokens and their sheet file, not read yet.
function textInput(name, bytes = bytesOf(name)) {
    const text = textOf(name, bytes);
    const tokens = tokensOf(name, text);
    return { name, text, tokens, bare: false, file: fileOf(tokens) };
}

// What the program answers for a text.
const answered = (input) => ({ ...input, answer: answerOf(ask(input.file)) });

// A sheet file or a text, read by the program: its name, text, tokens, whether the text is only spelled from kinds, and the answer.
function readInput(name) {
    const bytes = bytesOf(name);
    if (!bytes.includes(0)) {
        return answered(textInput(name, bytes));
    }
    const answer = answerOf(ask(bytes));
    if (!answer) {
        throw new Problem(`${name}: this is no sheet file (a block of kinds, then a block of flags, and nothing else)`);
    }
    return { name, bare: true, ...spelled(bytes), ...textBeside(name, bytes), answer };
}

// The text of a row, in one line; that of a row with no tokens of its own is its first token.
function sourceOf(input, row) {
    const { start } = input.tokens[row.first];
    return input.text.slice(start, input.tokens[row.end - 1].end).replace(/\s+/g, ' ');
}

// Where a place stands in the text: at its token, or past the last one.
function offsetOf(input, place) {
    const token = input.tokens[place];
    return token ? token.start : (input.tokens[input.tokens.length - 1]?.end ?? 0);
}

module.exports = { PROGRAM, answerOf, answered, ask, offsetOf, readInput, sourceOf, textInput, treeOf };
