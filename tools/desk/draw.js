// A tree as a picture: each row is a box around its tokens, so that what belongs together stands in one box. Boxes too wide are broken into lines.
'use strict';
const { ROWS } = require('./kinds.js');
const { NUMBERS } = require('./numbers.js');
const { sourceOf, treeOf } = require('./read.js');

const CHAR = 9; // the width of a character of a token, at 15 pixels
const SMALL = 5.6; // and of a caption, at 9
const HEIGHT = 22; // the height of a token
const GAP = 5; // between parts, and from a box to its parts
const CAPTION = 12; // the height of a caption
const WIDEST = 900; // a box that would be wider is broken into lines

// The families of rows, each with its colour.
const FAMILIES = [
    ['#1f6feb', [1, 2, 16, 17, 18]], // names, members, calls
    ['#6e7781', [3, 4, 9, 14, 15]], // literals, parentheses, keys, holes
    ['#9a6700', [5, 6, 7, 8, 10, 11, 12, 13]], // arrays and objects
    ['#0969a8', [19, 20, 21, 22, 23, 24, 27]], // operators
    ['#8250df', [28, 29]], // arrows
    ['#1a7f37', [30, 31, 32, 33, 34, 35, 36]], // bindings
    ['#bc4c00', [25, 26, 40, 41, 42, 43, 44, 45, 46, 47, 48, 49, 50]], // assignments and targets
];
const COLOUR = new Map(FAMILIES.flatMap(([colour, kinds]) => kinds.map((kind) => [kind, colour])));

// A text as it stands in XML; what XML cannot hold becomes a sign for it.
function escaped(text) {
    return text
        .replace(/[^\t\n\r\x20-\ud7ff\ue000-\ufffd\u{10000}-\u{10ffff}]/gu, '\ufffd')
        .replace(/[&<>"]/g, (sign) => ({ '&': '&amp;', '<': '&lt;', '>': '&gt;', '"': '&quot;' })[sign]);
}

// A light tint of a colour. Boxes in one another take two tints in turn.
function tint(colour, depth) {
    const part = depth % 2 === 0 ? 0.08 : 0.2;
    const mixed = [1, 3, 5].map((at) => Math.round(255 - (255 - parseInt(colour.slice(at, at + 2), 16)) * part));
    return '#' + mixed.map((value) => value.toString(16).padStart(2, '0')).join('');
}

// A number with at most one decimal.
const px = (number) => String(Math.round(number * 10) / 10);

// A token as a part of a picture. Operators and names that a row is marked by are set in bold.
function tokenPart(input, place, strong) {
    const { start, end } = input.tokens[place];
    const all = [...input.text.slice(start, end).replace(/\s+/g, ' ')];
    const text = all.length > 60 ? [...all.slice(0, 58), ' …'].join('') : all.join('');
    const closes = [',', ')', ']', '}', ':', '.'].includes(text);
    return { text, place, strong, closes, width: [...text].length * CHAR, height: HEIGHT, axis: HEIGHT / 2 };
}

// The parts of a row from left to right: its own tokens and its kids' boxes.
function partsOf(input, row, room) {
    const parts = [];
    const marked = row.mark !== row.first || (row.kind >= 19 && row.kind <= 21);
    let at = row.first;
    const upTo = (end) => {
        for (; at < end; at++) {
            parts.push(tokenPart(input, at, marked && at === row.mark));
        }
    };
    for (const kid of row.kids) {
        upTo(kid.first);
        parts.push(boxOf(input, kid, room));
        at = kid.end;
    }
    upTo(row.end);
    return parts;
}

// The width of parts beside one another.
const widthOf = (parts) => parts.reduce((sum, part) => sum + GAP + part.width, -GAP);

// The parts in lines that are no wider than the room, as far as that can be had. No line starts with a closing sign; an operator goes with its right side.
function linesOf(parts, room) {
    const lines = [[]];
    for (const part of parts) {
        const line = lines[lines.length - 1];
        if (line.length > 0 && !part.closes && widthOf([...line, part]) > room) {
            const last = line[line.length - 1];
            const along = line.length > 1 && last.strong && !['=>', '='].includes(last.text) && part.row;
            lines.push(along ? [line.pop()] : []);
        }
        lines[lines.length - 1].push(part);
    }
    return lines;
}

// A line of parts with its measures: the axis is the height at which its text stands.
function measured(parts) {
    const axis = Math.max(...parts.map((part) => part.axis));
    return { parts, axis, width: widthOf(parts), height: axis + Math.max(...parts.map((part) => part.height - part.axis)) };
}

// The caption of a row: its name, unless it is one token with no more to say.
const captionOf = (row) => (row.kids.length === 0 && row.end - row.first === 1 ? '' : ROWS[row.kind].split(',')[0]);

// The box of a row: its lines, and its measures.
function boxOf(input, row, room) {
    const lines = linesOf(partsOf(input, row, Math.max(room - 2 * GAP, 240)), room - 2 * GAP).map(measured);
    const caption = captionOf(row);
    const top = caption ? CAPTION + 2 : 1;
    const width = Math.max(...lines.map((line) => line.width), caption.length * SMALL) + 2 * GAP;
    const height = lines.reduce((sum, line) => sum + line.height + GAP, top - GAP) + (caption ? GAP : 1);
    return { row, caption, top, lines, width, height, axis: lines.length === 1 ? top + lines[0].axis : height / 2 };
}

// The picture of a token; one at which a record stands is red.
function tokenSvg(part, x, y, red) {
    const style = `${red.has(part.place) ? ' class="r"' : part.strong ? ' class="s"' : ''}`;
    return `<text${style} x="${px(x)}" y="${px(y + 16)}" textLength="${px(part.width)}" lengthAdjust="spacingAndGlyphs">${escaped(part.text)}</text>`;
}

// The picture of a box's frame. Its tip, shown under the mouse, has the row's number, name and text.
function frameSvg(input, box, x, y, depth) {
    const { row } = box;
    const tip = escaped(`row ${row.number}: ${ROWS[row.kind]}, tokens ${row.first} to ${row.end - 1}: ${sourceOf(input, row).slice(0, 200)}`);
    const colour = COLOUR.get(row.kind);
    const size = `x="${px(x)}" y="${px(y)}" width="${px(box.width)}" height="${px(box.height)}"`;
    const caption = box.caption && `<text class="c" x="${px(x + GAP)}" y="${px(y + 10)}">${escaped(box.caption)}</text>`;
    return `<title>${tip}</title><rect ${size} rx="4" fill="${tint(colour, depth)}" stroke="${colour}"/>${caption}`;
}

// The picture of a box and all in it, added to a list.
function boxSvg(input, box, x, y, depth, red, out) {
    out.push('<g>' + frameSvg(input, box, x, y, depth));
    let top = y + box.top;
    for (const line of box.lines) {
        let left = x + GAP;
        for (const part of line.parts) {
            const at = top + line.axis - part.axis;
            part.row ? boxSvg(input, part, left, at, depth + 1, red, out) : out.push(tokenSvg(part, left, at, red));
            left += part.width + GAP;
        }
        top += line.height + GAP;
    }
    out.push('</g>');
    return out;
}

const STYLE =
    'text{font:15px "DejaVu Sans Mono",Menlo,Consolas,monospace;fill:#1f2328}.s{font-weight:bold}.c{font:9px Verdana,"DejaVu Sans",sans-serif;fill:#57606a}' +
    '.r{fill:#cf222e;font-weight:bold}.n{font:12px Verdana,"DejaVu Sans",sans-serif;fill:#cf222e}rect{stroke-opacity:.5}';

// What `draw` writes: the box of the whole tree, and a line for each record under it.
function drawn(input) {
    const { rows, records } = input.answer;
    const box = boxOf(input, treeOf(rows), WIDEST);
    const notes = records.map(({ number, place }) => `record ${number} at token ${place}: ${NUMBERS.record[number].says}`);
    const width = Math.max(box.width, ...notes.map((note) => note.length * 7.6)) + 20;
    const height = box.height + 20 + notes.length * 20;
    const body = boxSvg(input, box, 10, 10, 0, new Set(records.map((record) => record.place)), []);
    const lines = notes.map((note, i) => `<text class="n" x="10" y="${px(box.height + 30 + i * 20)}">${escaped(note)}</text>`);
    return [
        `<svg xmlns="http://www.w3.org/2000/svg" width="${px(width)}" height="${px(height)}" viewBox="0 0 ${px(width)} ${px(height)}">`,
        `<style>${STYLE}</style>`, `<rect width="100%" height="100%" fill="#fff"/>`, ...body, ...lines, '</svg>', '',
    ].join('\n');
}

module.exports = { drawn };
