// The judge for the whole package: oxc-parser of npm, version 0.156.0, which is the crate with all its files behind `parseSync` and an ESTree. It is asked
// where it is installed: OXC_PARSER names a folder whose node_modules has it (tools/judges/oxc.sh). It must say what the reader says, the early commit among it.
'use strict';
const fs = require('fs');
const path = require('path');
const { pathToFileURL } = require('url');
const { rowsOf } = require('./estree.js');

const VERSION = '0.156.0';
const OPTIONS = { lang: 'js', sourceType: 'script', preserveParens: true };
const BEFORE = '(';

// The module's file, by its package.json: a module may be one that only `import` takes.
function fileOf(folder, about) {
  const entry = about.exports && (about.exports['.'] ?? about.exports);
  const pick = (one) => (typeof one === 'object' && one ? pick(one.node ?? one.import ?? one.default ?? one.require) : one);
  return path.join(folder, pick(entry) ?? about.main ?? 'index.js');
}

// The parser with its version, or nothing where no folder is named.
async function load(where = process.env.OXC_PARSER) {
  if (!where) return null;
  const folder = path.resolve(where, 'node_modules', 'oxc-parser');
  if (!fs.existsSync(folder)) throw new Error(`OXC_PARSER: there is no oxc-parser in ${where}/node_modules; tools/judges/oxc.sh installs it`);
  const about = JSON.parse(fs.readFileSync(path.join(folder, 'package.json'), 'utf8'));
  const module = await import(pathToFileURL(fileOf(folder, about)).href);
  const version = about.version === VERSION ? VERSION : `${about.version}, which is not ${VERSION}`;
  return { parseSync: module.parseSync ?? module.default.parseSync, version };
}

// The tree of a list's text in parentheses, since a list may start with `{`; false if there is an error. The brackets of the list match.
function parse(oxc, text) {
  const { program, errors } = oxc.parseSync('sheet.js', `${BEFORE}${text}\n)`, OPTIONS);
  if (errors.length > 0) return false;
  const outer = program.body.length === 1 && program.body[0].expression;
  if (!outer || outer.type !== 'ParenthesizedExpression') throw new Error('oxc-parser gave no tree for ' + text);
  return outer.expression;
}

// Rows without those of kind 41 and without sizes: the crate drops parentheses in targets.
function compared(words) {
  const out = [];
  for (let at = 0; at < words.length; at += 6) if (words[at] !== 41) out.push(...words.slice(at, at + 5));
  return out;
}

// The verdict on a list, and how it differs from the reader's answer, if it does: { verdict, how }.
function judge(oxc, { kinds, ours, spelled, balanced, pattern }) {
  const tree = balanced && parse(oxc, spelled.text);
  const verdict = tree !== false;
  if (verdict !== ours.clean) return { verdict, how: verdict ? 'accepts' : 'refuses' };
  if (!verdict) return { verdict, how: null };
  const theirs = compared(rowsOf(tree, spelled, pattern, { kinds, shift: BEFORE.length }));
  const mine = compared(ours.words);
  const same = theirs.length === mine.length && theirs.every((word, i) => word === mine[i]);
  return { verdict, how: same ? null : 'another tree' };
}

module.exports = { VERSION, load, judge };
