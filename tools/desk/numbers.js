// What the numbers mean: for each refusal and record a sentence, what is behind it, a sheet that gives it, and what to write instead.
// A sheet is a text, or the bytes of its two blocks where no text gives the number, or a call of the library where no sheet does.
'use strict';
const { sheetFile, fileOf, tokensOf } = require('./pack.js');
const { ask } = require('./read.js');

const LENT = 'uint32_t rows[6], records[2]; size_t first, second, third;';
const COUNTS = '&first, &second, &third';

const REFUSALS = {
    1: {
        says: 'the sheet has no tokens, or more than 2,048',
        means: 'A sheet is one expression of 1 to 2,048 tokens. (A tree that is given to the library: no words, or over 12,288.)',
        sheet: { kinds: [], flags: [] },
        gives: '1 0',
        instead: 'An expression. One that is too long becomes two sheets.',
    },
    2: {
        says: 'the list of flags is not as long as the list of kinds',
        means: 'Each token has a kind byte and a flag byte. A file that `pack` makes always has both.',
        sheet: { kinds: [1], flags: [] },
        gives: '2 0',
        instead: 'Pack the text again.',
    },
    3: {
        says: 'fewer than 6 words are lent for the rows of each token',
        means: 'The caller of the library lent too little memory. The program always lends enough.',
        sheet: { call: [`const uint8_t kinds[1] = {1}, flags[1] = {0}; ${LENT}`, `vuolmaset_read(kinds, 1, flags, 1, rows, 5, records, 2, ${COUNTS})`] },
        gives: '3 0',
        instead: 'Lend VUOLMASET_ROW_WORDS words: enough for every sheet.',
    },
    4: {
        says: 'fewer than 2 words are lent for the records of each token',
        means: 'The caller of the library lent too little memory (conversion: 2 words for each row of the subtree). The program always lends enough.',
        sheet: { call: [`const uint8_t kinds[1] = {1}, flags[1] = {0}; ${LENT}`, `vuolmaset_read(kinds, 1, flags, 1, rows, 6, records, 1, ${COUNTS})`] },
        gives: '4 0',
        instead: 'Lend VUOLMASET_RECORD_WORDS words: enough for every sheet.',
    },
    5: {
        says: 'this flag is neither 0 nor 1',
        means: 'A flag is 1 where a line break stands before the token, else 0. A file that `pack` makes has no other.',
        sheet: { kinds: [1], flags: [2] },
        gives: '5 0',
        instead: 'Pack the text again.',
    },
    6: {
        says: 'this is no kind of token: 0, or above 78',
        means: 'Kinds are 1 to 78. A file that `pack` makes has no other.',
        sheet: { kinds: [1, 79], flags: [0, 0] },
        gives: '6 1',
        instead: 'Pack the text again.',
    },
    7: {
        says: 'this bracket is one too many: over 64 are open',
        means: 'At most 64 brackets, round, square and curly together, may be open at one place.',
        sheet: { text: '('.repeat(65) + 'u' + ')'.repeat(65) },
        gives: '7 64',
        instead: 'Fewer brackets inside one another: `(u)` means the same as `((u))`.',
    },
    8: {
        says: 'no rule allows this here',
        means: 'The expression cannot go on with this token, or it ends too early. Statements, functions, classes, methods, `new`, `await` and `yield` are not read.',
        sheet: { text: 'sum + u * * u' },
        gives: '8 4',
        instead: '`sum + u * u`. A function with `{` and `return` becomes an arrow over one expression.',
    },
    9: {
        says: 'this is not an assignment target',
        means: 'Left of `=` stand a name, a member (`a.b`, `a[i]`), or an array or object of such; for `+=`, `++` and the like only a name or a member. A literal in brackets, `({a})`, is no target.',
        sheet: { text: '({a}) = b' },
        gives: '9 0',
        instead: '`({a} = b)`: the brackets go around the whole. If a comparison was meant: `===`.',
    },
    10: {
        says: 'this spread must come last in a target',
        means: 'Left of `=`, what `...` takes is all the rest, so nothing can follow it.',
        sheet: { text: '[...others, last] = samples' },
        gives: '10 1',
        instead: '`[first, ...others] = samples`, or an index for the last one.',
    },
    11: {
        says: 'the rest of an object binding must be a bare name',
        means: 'Only the library\'s entry for patterns gives it. In a sheet the head of the arrow is given up, and its `=>` is refused with 8.',
        sheet: {
            call: [
                `const uint8_t kinds[6] = {22, 28, 20, 1, 21, 23}, flags[6] = {0}; uint32_t rows[36], records[12]; size_t first, second, third; /* {...[a]} */`,
                `vuolmaset_pattern(kinds, 6, flags, 6, rows, 36, records, 12, ${COUNTS})`,
            ],
        },
        gives: '11 2',
        instead: '`{...others}`',
    },
    12: {
        says: 'a rest must be the last parameter or element, with nothing after it',
        means: 'In a binding, what `...` takes is all the rest: only `)`, `]` or `}` may follow, not even a comma.',
        sheet: { text: '(...others, last) => last' },
        gives: '12 3',
        instead: '`(first, ...others) => first`',
    },
    13: {
        says: 'the words are no well-formed tree',
        means: 'The caller of the library gave a tree whose kinds, counts or sizes do not fit, or whose words are not a multiple of 6. No sheet gives it.',
        sheet: { call: [`uint32_t tree[5] = {1, 0, 0, 1, 0}, records[2]; size_t first, second, third;`, `vuolmaset_convert(tree, 5, 0, records, 2, ${COUNTS})`] },
        gives: '13 0',
        instead: 'The rows that a reading gave, whole.',
    },
    14: {
        says: 'there is no such row or place',
        means: 'The caller of the library named a row past the tree\'s last one, or asked at a place past the last token. No sheet gives it.',
        sheet: { call: [`uint32_t tree[6] = {1, 0, 0, 1, 0, 1}, records[2]; size_t first, second, third;`, `vuolmaset_convert(tree, 6, 1, records, 2, ${COUNTS})`] },
        gives: '14 0',
        instead: 'A row from 0 to the number of rows less one.',
    },
};

const RECORDS = {
    1: {
        says: 'a line break stands before this `=>`',
        means: 'An arrow\'s `=>` stands on the line on which its parameters end.',
        sheet: { text: '(sum, u)\n  => sum + u * u' },
        gives: '1 5',
        instead: 'Break the line after the `=>`.',
    },
    2: {
        says: 'a rest has no initializer',
        means: 'A rest is always an array, if need be an empty one, so it cannot have a default.',
        sheet: { text: '(first, ...others = []) => others' },
        gives: '2 5',
        instead: '`(first, ...others) => others`',
    },
    3: {
        says: 'a rest cannot take this',
        means: 'In an object on the left of `=`, what follows `...` is a name or a member, never an array or object.',
        sheet: { text: '{...[a]} = b' },
        gives: '3 2',
        instead: '`{...a} = b`',
    },
    4: {
        says: 'a comma stands after the rest of this target',
        means: 'Left of `=`, nothing follows a rest, not even a comma.',
        sheet: { text: '[...a,] = b' },
        gives: '4 0',
        instead: '`[...a] = b`',
    },
    5: {
        says: 'a default is given by `=` alone',
        means: 'Inside a target, `a = 1` gives a default. `a += 1` does not.',
        sheet: { text: '[a += 1] = b' },
        gives: '5 2',
        instead: '`[a = 1] = b`',
    },
    6: {
        says: '`??` beside a bare `||` or `&&`',
        means: 'The standard wants brackets, so that the order cannot be misread.',
        sheet: { text: 'a ?? b || c' },
        gives: '6 1',
        instead: '`(a ?? b) || c` or `a ?? (b || c)`',
    },
    7: {
        says: 'a bare unary operator left of `**`',
        means: 'The standard wants brackets, so that `-u ** 2` cannot be misread.',
        sheet: { text: '-u ** 2' },
        gives: '7 2',
        instead: '`-(u ** 2)` or `(-u) ** 2`',
    },
    8: {
        says: 'this `=` stands in an object that is no target',
        means: '`{a = 1}` gives a default where it is the left side of `=`, or a parameter. As a value it is no object.',
        sheet: { text: '{a = 1}' },
        gives: '8 2',
        instead: '`{a: 1}`',
    },
};

const NUMBERS = { refusal: REFUSALS, record: RECORDS };

// The sheet file of an example, or nothing if the example is a call of the library.
function exampleFile({ text, kinds, flags }) {
    return text !== undefined ? fileOf(tokensOf('example', text)) : kinds && sheetFile(kinds, flags);
}

// An example in one or more lines.
function exampleText({ text, kinds, flags, call }) {
    return text ?? (kinds ? `a file with kinds [${kinds.join(' ')}] and flags [${flags.join(' ')}]` : `${call[0]}\n${call[1]}`);
}

// What is said of one number. Where the program can read the example, its answer is asked, and not copied from here.
function explained(sort, number) {
    const entry = NUMBERS[sort][number];
    const indent = (text) => text.replace(/^/gm, '    ');
    const bytes = exampleFile(entry.sheet);
    const answer = bytes ? ask(bytes).trimEnd().split('\n') : [`the library returns ${entry.gives.split(' ')[0]}`];
    const told = sort === 'record' ? `${answer[0]}, with the record ${answer[answer.length - 1]}` : answer[0];
    return [
        `${sort} ${number}: ${entry.says}`, `  ${entry.means}`, `  ${bytes ? 'A sheet that gives it:' : 'A call that gives it:'}`, indent(exampleText(entry.sheet)),
        `  The answer: ${told}`, `  Instead: ${entry.instead}`,
    ].join('\n');
}

// All numbers, a line each.
function listed() {
    return Object.entries(NUMBERS)
        .flatMap(([sort, entries]) => Object.entries(entries).map(([number, entry]) => `${sort} ${number}: ${entry.says}`))
        .join('\n');
}

// A table of one sort of numbers for docs/GUIDE.md.
function table(sort) {
    const cell = (text) => text.replace(/\|/g, '\\|').replace(/\n */g, ' ↵ ');
    const code = (text) => '`' + cell(text) + '`';
    const example = ({ text, call, ...bytes }) =>
        call ? code(call[1]) : text === undefined ? exampleText(bytes) : text.length > 100 ? `65 times ${code('(')}, ${code('u')}, 65 times ${code(')')}` : code(text);
    const rows = Object.entries(NUMBERS[sort]).map(
        ([number, { says, means, sheet, gives, instead }]) =>
            `| ${number} | **${cell(says)}.** ${cell(means)} | ${example(sheet)} | ${gives.split(' ')[1]} | ${cell(instead)} |`,
    );
    return [`| No | What it means | What gives it | Place | What to write instead |`, `|---|---|---|---|---|`, ...rows].join('\n');
}

module.exports = { NUMBERS, exampleFile, explained, listed, table };
