// The judge for the whole package (tools/judges/oxc.js), tried with stand-ins of the package's interface over acorn, and with the 5,000 judged lists as the
// reader's answers. The package itself is not tried here: it comes from npm's registry.
'use strict';
const fs = require('fs');
const path = require('path');
const { load, judge } = require('../tools/judges/oxc.js');
const { spell, balanced, twice } = require('../readers/spell.js');

const ACORN = process.env.ACORN || '/usr/share/nodejs/acorn';
const { work, holds, ends } = require('./holds.js')('the judge oxc-parser', 'oxc-');

// The stand-in: acorn behind parseSync. Like the crate it drops parentheses in targets and refuses `async(...x)`. `fault` spoils what it gives.
const MODULE = (fault) => `
const bare = (node) => (node && node.type === 'ParenthesizedExpression' ? bare(node.expression) : node);
function drop(node) {
    if (!node || typeof node !== 'object') return node;
    for (const key of Object.keys(node)) node[key] = Array.isArray(node[key]) ? node[key].map(drop) : drop(node[key]);
    if (node.type === 'AssignmentExpression' || node.type === 'AssignmentPattern') node.left = bare(node.left);
    if (node.type === 'UpdateExpression' || node.type === 'RestElement') node.argument = bare(node.argument);
    if (node.type === 'ArrayPattern') node.elements = node.elements.map(bare);
    if (node.type === 'ObjectPattern') for (const one of node.properties) if (one.value) one.value = bare(one.value);
    return node;
}
function parse(name, text, options) {
    if (name !== 'sheet.js' || options.sourceType !== 'script' || !options.preserveParens) throw new Error('other options');
    if (/^.async \\( \\.\\.\\. x3 \\)\\n.$/.test(text)) return { program: { type: 'Program', body: [] }, errors: [{ severity: 'Error', message: 'the early commit' }] };
    try {
        return { program: drop(acorn.parse(text, { ecmaVersion: 'latest', sourceType: 'script', preserveParens: true })), errors: [] };
    } catch (error) {
        return { program: { type: 'Program', body: [] }, errors: [{ severity: 'Error', message: error.message }] };
    }
}
const spoiled = (result, text) => { ${fault}; return result; };
const parseSync = (name, text, options) => spoiled(parse(name, text, options), text);
`;

// A folder with the stand-in as a module that only `import` takes, or one of CommonJS.
function installed(name, { fault = '', modern = true, version = '0.156.0' } = {}) {
    const folder = path.join(work, name, 'node_modules', 'oxc-parser');
    fs.mkdirSync(path.join(folder, 'src-js'), { recursive: true });
    const about = modern ? { type: 'module', exports: { '.': { types: './types.d.ts', default: './src-js/index.js' } } } : { main: 'src-js/index.js' };
    fs.writeFileSync(path.join(folder, 'package.json'), JSON.stringify({ name: 'oxc-parser', version, ...about }));
    const acorn = modern ? `import { createRequire } from 'module';\nconst acorn = createRequire(import.meta.url)(${JSON.stringify(ACORN)});` : `const acorn = require(${JSON.stringify(ACORN)});`;
    fs.writeFileSync(path.join(folder, 'src-js', 'index.js'), acorn + MODULE(fault) + (modern ? 'export { parseSync };\n' : 'module.exports = { parseSync };\n'));
    return path.join(work, name);
}

// A line of the judged lists, or a list and the reader's answer, as what is judged.
function caseOf(letter, kinds, flags, answer) {
    const numbers = (text) => JSON.parse('[' + text.trim().replaceAll(' ', ',') + ']');
    const [, words, records] = answer.split(':');
    const clean = answer.startsWith('read') && records.trim() === '';
    const ours = { clean, words: answer.startsWith('read') ? numbers(words) : [] };
    const it = { kinds, flags, ours, pattern: letter === 'p', balanced: balanced(kinds) };
    return { ...it, spelled: spell(kinds, flags, { pattern: it.pattern, renamed: clean ? twice(kinds, ours.words) : null }) };
}

// All judged lists.
function judgedLists() {
    const lines = fs.readFileSync(path.join(__dirname, 'judged', 'lists.txt'), 'utf8').matchAll(/^([rp]) ([0-9a-f]+) ([0-9a-f]+) > (.*)$/gm);
    return [...lines].map(([, letter, kinds, flags, answer]) => caseOf(letter, [...Buffer.from(kinds, 'hex')], [...Buffer.from(flags, 'hex')], answer));
}

// The stand-in says of every judged list what the reader says, trees with dropped parentheses among them.
async function agrees(cases, folder, how) {
    const oxc = await load(folder);
    const unlike = cases.filter((it) => judge(oxc, it).how);
    holds(`${how}: all judged lists`, oxc.version === '0.156.0' && unlike.length === 0, unlike.slice(0, 3).map((it) => it.spelled.text).join(' | '));
}

// Faults of a stand-in, and how each must be seen. Among them the dropped parentheses, and the order of two operands.
const FAULTS = [
    ['accepts', "if (result.errors.length) { result.errors = []; result.program.body = [{ expression: { type: 'ParenthesizedExpression', expression: {} } }]; }"],
    ['refuses', "if (text.includes('**')) result.errors = ['no']"],
    ['another tree', "JSON.stringify(result.program, (key, node) => { if (node && node.type === 'BinaryExpression') [node.left, node.right] = [node.right, node.left]; return node; })"],
    ['another tree', "JSON.stringify(result.program, (key, node) => { if (node && node.type === 'ArrayPattern') node.elements.pop(); return node; })"],
    ['another tree', "JSON.stringify(result.program, (key, node) => { if (node && node.type === 'Property') node.shorthand = false; return node; })"],
];

async function main() {
    const cases = judgedLists();
    const clean = cases.filter((it) => it.ours.clean);
    const withParens = clean.filter((it) => it.ours.words.some((word, at) => at % 6 === 0 && word === 41));
    holds('the judged lists', cases.length === 5000 && clean.length > 1000 && withParens.length > 10, `${clean.length} ${withParens.length}`);
    await agrees(cases, installed('module'), 'a module');
    await agrees(cases, installed('common', { modern: false }), 'a module of CommonJS');
    for (const [at, [how, fault]] of FAULTS.entries()) {
        const oxc = await load(installed(`fault${at}`, { fault }));
        holds(`fault ${at} is seen`, cases.some((it) => judge(oxc, it).how === how));
    }
    // The early commit: the package is held to the reader, which refuses it, and not to the standard.
    const early = [2, 18, 28, 1, 19];
    const oxc = await load(path.join(work, 'module'));
    holds('the early commit', judge(oxc, caseOf('r', early, [0, 0, 0, 0, 0], 'refused 8 5')).how === null);
    holds('the early commit, read', judge(oxc, caseOf('r', early, [0, 0, 0, 0, 0], 'read 0 0 0 : :')).how === 'refuses');
    holds('another version is named', (await load(installed('old', { version: '0.155.0' }))).version === '0.155.0, which is not 0.156.0');
    holds('no folder', (await load('')) === null);
    const missing = await load(work).catch((error) => error.message);
    holds('not installed', missing === `OXC_PARSER: there is no oxc-parser in ${work}/node_modules; tools/judges/oxc.sh installs it`, missing);
    ends(', with stand-ins of its interface (the package itself is not run here)');
}

main();
