// Texts and places in them: reading a file, a line with a caret, and what is said when something cannot be done.
'use strict';
const fs = require('fs');

// The longest file that is looked at. A sheet's text has 2,048 tokens; the rest is room for comments and long strings.
const LONGEST = 1 << 20;

const BREAK = /\r\n|[\n\r\u2028\u2029]/;

// What the user is told, and nothing else: no stack trace.
class Problem extends Error {}

// Why a file could not be opened, read or written, in one line.
function fileProblem(name, error) {
    const why = { ENOENT: 'there is no such file', EISDIR: 'this is a folder', EACCES: 'not allowed', ENOSPC: 'the disk is full' };
    return new Problem(`${name}: ${why[error.code] ?? error.message}`);
}

// All bytes of a file, or of standard input for `-`; never more than LONGEST.
function bytesOf(name) {
    const buffer = Buffer.alloc(LONGEST + 1);
    let at = 0;
    try {
        const fd = name === '-' ? 0 : fs.openSync(name, 'r');
        for (let got = -1; got !== 0 && at < buffer.length; at += got) {
            got = fs.readSync(fd, buffer, at, buffer.length - at, null);
        }
    } catch (error) {
        throw fileProblem(name, error);
    }
    if (at > LONGEST) {
        throw new Problem(`${name}: over ${LONGEST} bytes, too long for a sheet`);
    }
    return buffer.subarray(0, at);
}

// Writes a file, or to standard output for `-`.
function write(name, content) {
    try {
        fs.writeFileSync(name === '-' ? 1 : name, content);
    } catch (error) {
        throw fileProblem(name, error);
    }
}

// The text of bytes. Zero bytes are in every sheet file and in no text.
function textOf(name, bytes) {
    if (bytes.includes(0)) {
        throw new Problem(`${name}: not a text (it holds zero bytes); if it is a sheet file, 'show' and 'draw' read it`);
    }
    try {
        return new TextDecoder('utf-8', { fatal: true, ignoreBOM: true }).decode(bytes);
    } catch {
        throw new Problem(`${name}: neither a sheet file nor a text in UTF-8`);
    }
}

// The line, counted from 1, and the column, counted from 0, of an offset; and the line's text.
function lineAt(text, offset) {
    const before = text.slice(0, offset).split(BREAK);
    const column = before[before.length - 1].length;
    const rest = text.slice(offset).split(BREAK, 1)[0];
    return { line: before.length, column, text: before[before.length - 1] + rest };
}

// At most 100 characters of a line around a column, and the column in them. Tabs and other controls become spaces, so that the caret stands right.
function window(line, column) {
    const from = line.length > 100 ? Math.max(0, Math.min(column - 60, line.length - 100)) : 0;
    const part = line.slice(from, from + 100).replace(/[\0-\x1f\x7f]/g, ' ');
    const [left, right] = [from > 0 ? '… ' : '', from + 100 < line.length ? ' …' : ''];
    return { text: left + part + right, column: column - from + left.length };
}

// A place of a text with a caret under it, and a sentence behind the caret.
function pointed(name, text, offset, head, sentence) {
    const at = lineAt(text, offset);
    const shown = window(at.text, at.column);
    return `${name}:${at.line}:${at.column + 1}: ${head}\n  ${shown.text}\n  ${' '.repeat(shown.column)}^ ${sentence}`;
}

module.exports = { BREAK, Problem, bytesOf, pointed, textOf, write };
