// Holds tools/sheet and docs/GUIDE.md to the compiled program: packed sheets, explanations, pictures, and what is said of bad input.
'use strict';
const fs = require('fs');
const path = require('path');
const { spawnSync } = require('child_process');

const ROOT = path.join(__dirname, '..');
const { ROWS, spell } = require('../tools/desk/kinds.js');
const { fileOf, sheetFile, spelled, tokensOf } = require('../tools/desk/pack.js');
const { ask } = require('../tools/desk/read.js');
const { NUMBERS, exampleFile, table } = require('../tools/desk/numbers.js');

const { work, holds, ends } = require('./holds.js')('tools/sheet', 'tools-');

// A file of the working folder with this content.
function file(name, content) {
    fs.writeFileSync(path.join(work, name), content);
    return name;
}

// A run of tools/sheet in the working folder.
function sheet(words, more = {}) {
    return spawnSync(path.join(ROOT, 'tools', 'sheet'), words, { cwd: work, encoding: 'utf8', maxBuffer: 1 << 26, ...more });
}

// The sheet file of a text.
const packed = (text) => fileOf(tokensOf('text', text));

// Texts with all sorts of tokens, breaks, comments, and slashes that divide or not.
const TEXTS = [
    'last - n + 1', '[a, b] = c', '({ start, end = 0, ...others }) => start', 'async (a) => a', 'a\n++\nb', 'a /b/ c', 'x.while() /y/ 2', 'a++ /b/ c', 'a\n++/b/.c',
    '{a: 1} /b/ c', '[/b/g, typeof /x/, (/y/)]', 'a /* one\ntwo */ => b', 'a // to the end\n => b', '"text" + \'t\' + 0x1f + 1n + .5', 'a ? .5 : b', '\ufeffπ ** 2\r\n<< b',
    'f(...as, static)[this.class]', '-- a in b instanceof c', 'a >>>= b ??= c', '!'.repeat(2047) + 'a',
];

// The kinds that pack gives, each by itself; words of kinds 5 and 17; and the files of the examples, which another script makes.
function packsKinds() {
    for (let kind = 1; kind <= 78; kind++) {
        const [text, kinds] = kind === 13 ? [spell(kind), [kind]] : [`name ${spell(kind)}`, [1, kind]];
        holds(`kind ${kind}`, packed(text).equals(sheetFile(kinds, kinds.map(() => 0))));
    }
    const modifiers = 'abstract accessor declare out override private protected public readonly static';
    holds('modifiers', packed(modifiers).equals(sheetFile(Array(10).fill(5), Array(10).fill(0))));
    for (const word of 'break case class debugger do enum export for function if import return super switch throw try var while with'.split(' ')) {
        holds(word, packed(word).equals(sheetFile([17], [0])));
    }
    holds('names like others', packed('constructor let get of undefined __proto__').equals(sheetFile(Array(6).fill(1), Array(6).fill(0))));
    for (const name of ['rms', 'sag', 'report']) {
        const run = sheet(['pack', path.join(ROOT, 'examples', `${name}.js`), '-o', `${name}.sheet`]);
        holds(`pack ${name}`, run.status === 0 && fs.readFileSync(path.join(work, `${name}.sheet`)).equals(fs.readFileSync(path.join(ROOT, 'examples', `${name}.sheet`))));
    }
}

// Each of the judged lists, spelled as a text and packed, gives back its kinds and flags (the first flag is free, and packed as 0).
function packsJudged() {
    const lines = fs.readFileSync(path.join(ROOT, 'tests', 'judged', 'lists.txt'), 'utf8').matchAll(/^[rp] ([0-9a-f]+) 0[01]([0-9a-f]*)/gm);
    const files = [...lines].map(([, kinds, flags]) => sheetFile(Buffer.from(kinds, 'hex'), Buffer.from('00' + flags, 'hex')));
    const wrong = files.filter((bytes) => !packed(spelled(bytes).text).equals(bytes));
    holds('the judged lists', files.length === 5000 && wrong.length === 0, `${wrong.length} of ${files.length}`);
}

// Packed and shown, a text gives back its tokens: what is shown of the file alone packs to the same file.
function packsAndShows() {
    TEXTS.forEach((text, i) => {
        sheet(['pack', '--force', file(`t${i}.txt`, text)]);
        const bytes = fs.readFileSync(path.join(work, `t${i}.sheet`));
        const run = sheet(['show', `t${i}.sheet`]);
        const again = run.stdout.split('\n\n')[1];
        holds(`tokens of ${text.slice(0, 40)}`, packed(again).equals(bytes) && run.stderr === '' && run.status < 2, run.stdout.slice(0, 200) + run.stderr);
    });
    const both = [sheet(['show', 't0.txt']), sheet(['show', '-'], { input: TEXTS[0] })].map((one) => one.stdout.replace(/^.*: read/, ''));
    holds('a text by name and by standard input', both[0] === both[1] && both[0].includes('Binary -      last - n\n'));
    file('t0.js', TEXTS[0]);
    holds('the text beside a sheet', sheet(['show', 't0.sheet']).stdout.includes('Binary -      last - n\n'));
    file('t0.js', 'last - n * 1');
    holds('another text beside a sheet', sheet(['show', 't0.sheet']).stdout.includes('Binary -      name - name\n'));
}

// Texts that are not clean, and what our reader gives them.
const UNCLEAN = [
    ['({a}) = b', 'refusal 9'], ['a +', 'refusal 8'], ['a\n++\nb', 'refusal 8'], ['('.repeat(65) + 'u' + ')'.repeat(65), 'refusal 7'], ['-u ** 2', '1 record'],
    ['[...a,] = b, -u ** 2', '2 records'],
];

// pack u.js, and the file that it has written, if any.
function packsU(words) {
    const at = path.join(work, 'u.sheet');
    fs.rmSync(at, { force: true });
    const run = sheet(['pack', 'u.js', ...words]);
    return { ...run, file: fs.existsSync(at) ? fs.readFileSync(at) : undefined };
}

// pack asks the reader: it says what show says; what is refused is written only by force, what is read with records is written.
function packsWhatIsRead() {
    for (const [text, gives] of UNCLEAN) {
        const [what, bytes] = [text.slice(0, 20), packed(text)];
        file('u.js', text);
        const points = sheet(['show', 'u.js']).stdout.match(/^u\.js:\d+:\d+: re(fusal|cord) \d.*\n.*\n *\^ \d+: .*\n/gm).join('');
        const [plain, forced] = [packsU([]), packsU(['--force'])];
        if (gives.startsWith('refusal')) {
            const [instead, none] = [`; what to write instead: tools/sheet explain ${gives}\n`, 'u.js: refused, so no sheet file is written'];
            holds(`pack ${what}`, plain.status === 1 && !plain.file && plain.stdout === '' && plain.stderr === points + none + instead, plain.stderr);
            holds(`pack --force ${what}`, forced.status === 0 && forced.file?.equals(bytes) && forced.stderr === `${points}u.js: refused, and packed by force${instead}`, forced.stderr);
        } else {
            const record = points.match(/record (\d+)/)[1];
            const last = `u.js: packed, but with ${gives}, which the bench does not take; what to write instead: tools/sheet explain record ${record}\n`;
            const asExpected = (run) => run.status === 0 && run.file?.equals(bytes) && run.stderr === points + last;
            holds(`pack ${what}`, asExpected(plain) && asExpected(forced), plain.stderr);
        }
    }
    file('u.js', 'a + b');
    holds('pack a clean text', [packsU([]), packsU(['--force'])].every((run) => run.status === 0 && run.stderr === '' && run.file?.equals(packed('a + b'))));
}

// Each number is explained, and its example really gives it when the program reads it; what is to be written instead is clean.
function explains() {
    for (const [sort, last] of [['refusal', 14], ['record', 8]]) {
        holds(`numbers of ${sort}s`, Object.keys(NUMBERS[sort]).join() === Array.from({ length: last }, (_, i) => i + 1).join());
        for (const [number, entry] of Object.entries(NUMBERS[sort])) {
            const run = sheet(['explain', sort, number]);
            holds(`explain ${sort} ${number}`, run.status === 0 && run.stdout.startsWith(`${sort} ${number}: ${entry.says}\n`) && entry.gives.startsWith(`${number} `), run.stderr);
            const bytes = exampleFile(entry.sheet);
            const lines = bytes ? ask(bytes).trimEnd().split('\n') : [];
            const want = sort === 'refusal' ? `refused ${entry.gives}` : entry.gives;
            holds(`the example of ${sort} ${number}`, !bytes || (lines[lines.length - 1] === want && (sort === 'refusal' || lines[0].split(' ')[2] === '1')), lines.join());
            for (const text of (entry.instead.match(/`[^`]+`/g) ?? []).map((code) => code.slice(1, -1))) {
                holds(`${text} instead`, text.length < 4 || text === 'return' || / 0 \d+$/.test(ask(packed(text)).split('\n')[0]), text);
            }
        }
    }
}

// The sentences of the Rust crate are those of the tools.
function saysInRust() {
    const source = fs.readFileSync(path.join(ROOT, 'bindings', 'rust', 'src', 'sentences.rs'), 'utf8');
    for (const [sort, name] of [['refusal', 'REFUSALS'], ['record', 'RECORDS']]) {
        const said = [...(source.match(`\nconst ${name}: [^=]*= \\[\n([^]*?)\\];\n`)?.[1] ?? '').matchAll(/^ {4}(".*"),$/gm)].map(([, text]) => JSON.parse(text));
        const wanted = Object.values(NUMBERS[sort]).map((entry) => entry.says);
        holds(`${sort}s in bindings/rust`, JSON.stringify(said) === JSON.stringify(wanted), said.filter((text, i) => text !== wanted[i]).join('; '));
    }
}

// The examples that are calls of the library, in a program that is linked with it.
function callsLibrary() {
    const archive = path.join(ROOT, 'crates', 'vuolmaset', 'out', 'libvuolmaset.a');
    if (!fs.existsSync(archive)) {
        console.log('tools/sheet: the examples that are calls were not tried, the archive is not built (cd crates/vuolmaset && rt lib)');
        return;
    }
    const tries = Object.values(NUMBERS.refusal).filter((entry) => entry.sheet.call).map(({ sheet: { call }, gives }) => {
        const [number, place] = gives.split(' ');
        return `    { ${call[0]} if (${call[1]} != ${number} || first != ${place}) { return ${number}; } }`;
    });
    file('calls.c', ['#include "vuolmaset.h"', 'int main(void) {', ...tries, '    return 0;', '}', ''].join('\n'));
    const built = spawnSync('gcc', ['-std=c11', '-Wall', '-Wextra', '-Werror', '-I', path.join(ROOT, 'include'), 'calls.c', archive, '-o', 'calls'], { cwd: work, encoding: 'utf8' });
    const run = spawnSync(path.join(work, 'calls'));
    holds('the calls of the library', tries.length === 5 && built.status === 0 && run.status === 0, `${built.stderr} ${run.status}`);
}

// Whether files are well-formed XML, by Python's parser.
function wellFormed(names) {
    const code = 'import sys, xml.dom.minidom\nfor name in sys.argv[1:]: xml.dom.minidom.parse(name)';
    return spawnSync('python3', ['-c', code, ...names], { cwd: work, encoding: 'utf8' });
}

// Pictures are well-formed, whatever stands in the text, and those of the guide are what draw makes of the texts beside them.
function draws() {
    const texts = [...TEXTS, '"<b> & \'c\' ]]> \u0001 \ud83d\ude00" + a<b>c && d', '"' + 'x'.repeat(500) + '"', '[a, , ...b]', '-u ** 2', 'a ?? b || c', '[' + 'a,'.repeat(1023) + ']'];
    texts.forEach((text, i) => {
        const run = sheet(['draw', file(`d${i}.js`, text), '-o', `d${i}.svg`]);
        const refused = ask(packed(text)).startsWith('refused');
        holds(`draw ${text.slice(0, 40)}`, refused ? run.status === 1 && run.stderr.includes('no tree') : run.status < 2 && fs.existsSync(path.join(work, `d${i}.svg`)), run.stderr);
    });
    const made = fs.readdirSync(work).filter((name) => name.endsWith('.svg'));
    const parsed = wellFormed(made);
    holds('well-formed pictures', made.length > 20 && parsed.status === 0, parsed.stderr);
    const pictures = path.join(ROOT, 'docs', 'pictures');
    for (const name of fs.readdirSync(pictures).filter((one) => one.endsWith('.svg'))) {
        const text = [pictures, path.join(ROOT, 'examples')].map((folder) => path.join(folder, name.replace('.svg', '.js'))).find(fs.existsSync);
        holds(`docs/pictures/${name}`, sheet(['draw', text, '-o', '-']).stdout === fs.readFileSync(path.join(pictures, name), 'utf8'), 'draw it again');
    }
}

// Bad input: what is said, on which lines at most, and the status. Never a stack trace.
const BAD = [
    [['show', 'none.js'], '', /^none\.js: there is no such file\n$/], [['show', '.'], '', /^\.: this is a folder\n$/], [['show', '-'], '', /^-: there is no expression in it\n$/],
    [['show', '-'], '// nothing\n', /there is no expression/], [['show', '-'], Buffer.from([255, 254]), /neither a sheet file nor a text/],
    [['show', '-'], 'abc\0', /this is no sheet file/], [['draw', '-'], Buffer.alloc(1 << 20), /this is no sheet file/], [['show', '-'], Buffer.alloc(1 << 21, 'a '), /too long for a sheet/],
    [['show', '-'], 'a +', /-:1:4: refusal 8 at token 2\n {2}a \+\n {5}\^ 8: the expression is not finished\n$/],
    [['show', '-'], 'var x = 1', /8: no rule allows `var` here; a sheet is one expression/], [['pack', '-'], 'let x = 1;', /-:1:10: not a sheet\n.*\n {11}\^ a sheet is one expression and has no `;`\n$/],
    [['show', '-'], 'x => { return x }', /8: no rule allows `\{` here; a sheet has no blocks/], [['show', '-'], '({...[a]}) => b', /8: no rule allows `=>` here/],
    [['show', '-'], '({a}) = b', /-:1:1: refusal 9 at token 0\n {2}\(\{a\}\) = b\n {2}\^ 9: this is not an assignment target\n$/],
    [['pack', '-'], 'a +\n  `b`', /-:2:3: not a sheet\n {4}`b`\n {4}\^ a sheet holds no template/], [['pack', '-'], 'a?.b', /a sheet has no `\?\.`/], [['pack', '-'], 'a.#b', /no private names/],
    [['pack', '-'], 'a +' .repeat(1024) + 'a', /\^ a sheet has at most 2,048 tokens/], [['pack', '-'], '"abc', /-:1:1: not a sheet\n {2}"abc\n {2}\^ Unterminated string/],
    [['pack', '-'], '\\u0061sync', /cannot tell a spelling/], [['pack', '-'], 'a @ b', /a sheet has no `@`/], [['pack', '-'], 'a\0', /not a text/], [['draw', '-'], '[...a, b] = c', /no tree to draw/],
    [['pack', 't0.txt', '-o', 'none/x'], '', /^none\/x: there is no such file\n$/], [['pack', 't0.txt', '-o', 't0.txt'], '', /this is the file that was read/], [[], '', /^usage:/], [['pack'], '', /^usage:/],
    [['show', 'a', 'b'], '', /^usage:/], [['show', '--force', 'a'], '', /^usage:/], [['show', 'a', '-o', 'b'], '', /^usage:/], [['draw', 'a', '-o'], '', /^usage:/], [['toString', 'a'], '', /^usage:/],
    [['explain', '15'], '', /^explain 15: refusals are 1 to 14/], [['explain', 'record', '9'], '', /refusals are 1 to 14/], [['explain', 'toString'], '', /refusals are 1 to 14/],
];

// Runs the list, then a machine without acorn, and a clone in which nothing is built.
function saysWhy() {
    for (const [words, input, said] of BAD) {
        const run = sheet(words, { input });
        const out = run.stdout + run.stderr;
        const brief = said.source.startsWith('^usage') || out.split('\n').length <= 5;
        holds(`${words.join(' ')} ${String(input).slice(0, 20)}`, said.test(out) && brief && (run.status === 1 || run.status === 2) && !/^ +at .*:\d+/m.test(out), out.slice(0, 300));
    }
    const without = sheet(['pack', 't0.txt'], { env: { ...process.env, ACORN: '/none' } });
    holds('without acorn', without.stderr === 'the tokenizer acorn is not at /none; on Debian: apt-get install node-acorn\n', without.stderr);
    for (const name of ['tools/desk', 'tools/sheet', 'readers/kinds.js', 'readers/kinds.txt']) {
        fs.cpSync(path.join(ROOT, name), path.join(work, 'clone', name), { recursive: true });
    }
    const bare = (words) => spawnSync(path.join(work, 'clone', 'tools', 'sheet'), [...words, 't0.txt', ...(words[0] === 'pack' ? ['-o', 'bare.sheet'] : [])], { cwd: work, encoding: 'utf8' });
    const build = 'crates/sheet/out/sheet is not built yet; this builds it: (cd crates/sheet && rt run -- data/p1.sheet)\n';
    holds('show, not built', bare(['show']).stderr === build && bare(['show']).status === 2);
    holds('pack, not built', bare(['pack']).stderr === build && bare(['pack']).status === 2 && !fs.existsSync(path.join(work, 'bare.sheet')));
    const forced = bare(['pack', '--force']);
    const written = fs.readFileSync(path.join(work, 'bare.sheet'));
    holds('pack --force, not built', forced.stderr === `${build}t0.txt: packed by force, and not read\n` && forced.status === 0 && written.equals(packed(TEXTS[0])), forced.stderr);
}

// The guide: its tables of numbers are those of the tools, its sheets give what it says, its pictures are there.
function guides() {
    const guide = fs.readFileSync(path.join(ROOT, 'docs', 'GUIDE.md'), 'utf8');
    holds('the guide\'s tables', guide.includes(table('refusal')) && guide.includes(table('record')), 'tools/sheet explain --table prints them');
    const sheets = [...guide.matchAll(/^\| P(\d+) \| `(.*?)` \| `(.*?)` \|/gm)];
    holds('the guide\'s ten sheets', sheets.map((one) => one[1]).join() === '1,2,3,4,5,6,7,8,9,10');
    for (const [, number, text, answer] of sheets) {
        const lines = ask(packed(text.replace(/\\\|/g, '|'))).trimEnd().split('\n');
        const records = lines.slice(1 + Number(lines[0].split(' ')[1]));
        holds(`P${number} of the guide`, answer === [lines[0], ...(lines[0].startsWith('read') ? records : [])].join(', '), lines.join());
    }
    holds('the guide\'s kinds of rows', guide.includes(Object.entries(ROWS).map(([kind, name]) => `${kind} ${name}`).join('; ')));
    file('note.js', '"sag at " + `${start}`');
    holds('the guide\'s template', guide.includes('$ tools/sheet pack note.js\n' + sheet(['pack', 'note.js']).stderr));
    for (const [, name] of guide.matchAll(/\]\(([^)#:]+)\)/g)) {
        holds(`the guide's link ${name}`, fs.existsSync(path.join(ROOT, 'docs', name)));
    }
    for (const [, name, text] of guide.matchAll(/\$ tools\/sheet show (\S+)\n([^]*?)```/g)) {
        const run = spawnSync('tools/sheet', ['show', name], { cwd: ROOT, encoding: 'utf8' });
        holds(`show ${name} of the guide`, run.stdout.replace(/ +$/gm, '') === text.replace(/ +$/gm, ''), run.stdout);
    }
}

[packsKinds, packsJudged, packsAndShows, packsWhatIsRead, explains, saysInRust, callsLibrary, draws, saysWhy, guides].forEach((part) => part());
ends();
