// The known classes of disagreement. docs/DIFFERENCES.md has each with its smallest sheet and the clause that decides it.
'use strict';
const { byAcorn } = require('../../readers/parsers.js');
const { MENDS, CallsAsTargets } = require('./mended.js');
const { isName, spell } = require('../../readers/spell.js');

// The rows as a tree: each has its kind, first and kids.
function treeOf(words) {
  const stack = [];
  for (let at = 0; at < words.length; at += 6) {
    const kids = words[at + 4] ? stack.splice(-words[at + 4]) : [];
    stack.push({ kind: words[at], first: words[at + 2], kids });
  }
  return stack[0];
}

const some = (tree, test) => test(tree) || tree.kids.some((kid) => some(kid, test));
const isPatternAssign = (tree) => tree.kind === 25 && (tree.kids[0].kind === 42 || tree.kids[0].kind === 43);

const isLiteral = (row) => row.kind >= 5 && row.kind <= 8;

// One of the four strict judges at least agrees with the reader.
const backed = (it) => ['acorn', 'babel', 'V8', 'SpiderMonkey'].some((name) => it.verdicts[name] === it.standard.clean);

function acornClass(it, accepts) {
  for (const [name, Parser] of MENDS) {
    const tree = byAcorn(it.spelled.text, Parser);
    if (tree !== null && !!tree !== accepts) return name;
  }
  if (!accepts && byAcorn(spell(it.kinds, it.flags, { ...it, calm: true }).text)) return 'acorn: x.while() / y has a slash for a regular expression';
  return null;
}

// A ShorthandInit that was never converted under a TargetMember or TargetIndex, and no other record.
function initUnderMember(it) {
  if (!it.standard.read || it.standard.records.some((word, i) => i % 2 === 0 && word !== 8)) return false;
  return some(treeOf(it.standard.words), (tree) => (tree.kind === 46 || tree.kind === 47) && some(tree, (row) => row.kind === 12));
}

function babelClass(it, accepts) {
  const { kinds, ours } = it;
  if (accepts && initUnderMember(it)) return 'babel: {x = 1} under a member or index of a target';
  if (accepts && kinds.some((k, i) => k === 2 && isName(kinds[i + 1]) && kinds[i + 2] === 29) && ours.number === 8) return 'babel: async x => y as an operand';
  if (accepts || !it.standard.clean) return null;
  const tree = treeOf(it.standard.words);
  if (some(tree, parenInParameter)) return 'babel: (x) = y in a parameter';
  if (some(tree, prefixAfterInit)) return 'babel: an error of one part of a literal disturbs another';
  return null;
}

// A target in parentheses inside a parameter's default, or inside a computed key of its pattern.
const hasParen = (tree) => some(tree, (row) => row.kind === 41);
const parenInParameter = (tree) =>
  ((tree.kind === 34 || tree.kind === 36) && hasParen(tree)) || (tree.kind === 32 && some(tree, (row) => row.kind === 15 && hasParen(row)));

// A pattern with an initialized shorthand and with a member of a literal that has a prefix operator or an update in it.
function prefixAfterInit(tree) {
  if (tree.kind !== 42 && tree.kind !== 43) return false;
  const hasPrefix = (row) => isLiteral(row) && some(row, (one) => one.kind >= 19 && one.kind <= 21);
  return some(tree, (row) => row.kind === 50) && some(tree, (row) => (row.kind === 46 || row.kind === 47) && some(row, hasPrefix));
}

// A call with an assignment to a pattern in an argument, after one with a literal or a compound assignment in it.
function laterPattern(tree) {
  if (tree.kind !== 18) return false;
  const blocks = (row) => isLiteral(row) || row.kind === 26 || row.kind === 42 || row.kind === 43;
  const from = tree.kids.findIndex((argument, i) => i > 0 && some(argument, blocks));
  return from > 0 && tree.kids.slice(from + 1).some((argument) => some(argument, isPatternAssign));
}

// An async arrow with a call of `async` in its head that has more after a spread.
function spreadCallInHead(kinds) {
  const isCall = (row) => row.kind === 18 && row.kids[0].kind === 1 && kinds[row.kids[0].first] === 2 && row.kids.some((kid) => kid.kind === 10);
  return (tree) => tree.kind === 29 && tree.kids.slice(0, -1).some((parameter) => some(parameter, isCall));
}

function v8Class(it, accepts) {
  if (accepts && byAcorn(it.spelled.text, CallsAsTargets)) return 'V8, SpiderMonkey: a call as a simple target is put off until it runs';
  if (!it.standard.read) return null;
  const tree = treeOf(it.standard.words);
  if (some(tree, laterPattern)) return 'V8: an argument judged with the ones before it';
  if (!accepts && some(tree, spreadCallInHead(it.kinds))) return 'V8: async(...x, y) in the head of an async arrow';
  return null;
}

function spiderMonkeyClass(it, accepts) {
  return accepts && byAcorn(it.spelled.text, CallsAsTargets) ? 'V8, SpiderMonkey: a call as a simple target is put off until it runs' : null;
}

function typescriptClass(it, accepts) {
  if (accepts) return 'TypeScript: its parser alone says nothing of late checks and types';
  if (it.kinds.some((k, i) => k === 2 && (it.kinds[i + 1] === 18 || it.kinds[i + 1] === 48))) return 'TypeScript: async( and async< taken for heads';
  if (it.kinds.some((k, i) => k === 27 && it.flags[i + 1] && (it.kinds[i + 2] === 52 || it.kinds[i + 2] === 53) && !it.flags[i + 2])) {
    return 'TypeScript: a member name on a new line before in or instanceof';
  }
  if (it.kinds.includes(26) && it.kinds.includes(29) && it.kinds.some((k, i) => k === 19 && it.kinds[i + 1] === 25)) {
    return 'TypeScript: (x) : y => z inside a conditional, taken for a return type';
  }
  return null;
}

// The package of the crate has no known class: it was not run where this was written.
const CLASSES = { acorn: acornClass, babel: babelClass, V8: v8Class, SpiderMonkey: spiderMonkeyClass, TypeScript: typescriptClass, oxc: () => null };
// The class of a judge's disagreement, or nothing. A tree that differs, and the plain reader, have no class.
function classOf(it, unlike) {
  if (unlike.how !== 'accepts' && unlike.how !== 'refuses') return null;
  if (!backed(it)) return null;
  return CLASSES[unlike.judge](it, unlike.how === 'accepts');
}

module.exports = { classOf };
