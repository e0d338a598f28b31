// Spells token lists as JavaScript: a space between tokens, at flag 1 a line break. Names, numbers and reserved words vary by place, so that no
// two parameters of an arrow bear one name by chance where the kinds leave a choice.
'use strict';
const { KIND, TEXTS } = require('./kinds.js');

// Some of the reserved words: none that an expression can begin with.
const RESERVED = ['while', 'if', 'return', 'switch', 'var', 'case', 'with', 'do', 'throw', 'else', 'for', 'break', 'default', 'try', 'debugger'];
const STATEMENT = new Set(['while', 'if', 'with', 'for']); // words before whose parentheses a statement may stand
const NUMBERS = ['1', '2.5', '0x1f', '10', '1e3'];
const STRINGS = ['"s"', "'t'"];
// The texts of these kinds; the others are spelled by those that kinds.txt has. A kind with several texts is spelled by them in turn.
const VARIED = new Map([[KIND.STR, STRINGS], [KIND.NUMBER, NUMBERS], [KIND.REG_EXP, ['/r/']], [KIND.RESERVED, RESERVED]]);

const isName = (k) => k >= 1 && k <= 5;

// The text, and where each token starts and ends. `renamed` has places that are spelled as plain names; `calm` leaves some reserved words out.
// A binding is spelled as the parameter of an arrow.
function spell(kinds, flags, { renamed, calm, pattern } = {}) {
  const parts = pattern ? ['( '] : [];
  let length = pattern ? 2 : 0;
  const starts = new Map();
  const ends = new Map();
  const varied = calm ? new Map(VARIED).set(KIND.RESERVED, RESERVED.filter((word) => !STATEMENT.has(word))) : VARIED;
  const counts = new Map();
  for (let i = 0; i < kinds.length; i++) {
    const kind = renamed && renamed.has(i) ? KIND.IDENT : kinds[i];
    const texts = varied.get(kind) ?? TEXTS.get(kind);
    const turn = counts.get(kind) ?? 0;
    counts.set(kind, turn + 1);
    const word = kind === KIND.IDENT ? 'x' + i : texts[turn % texts.length];
    if (i > 0 || flags[i]) {
      parts.push(flags[i] ? '\n' : ' ');
      length += 1;
    }
    starts.set(length, i);
    parts.push(word);
    length += word.length;
    ends.set(length, i + 1);
  }
  if (pattern) parts.push(' ) => 0');
  return { text: parts.join(''), starts, ends };
}

// Names of parameters that kinds 2 to 5 would spell alike: one arrow may not have a name twice (15.3.1), and kinds carry no names.
function twice(kinds, words) {
  const names = [];
  for (let at = 0; at < words.length; at += 6) if (words[at] === 30 && kinds[words[at + 2]] > 1) names.push(words[at + 2]);
  return names.length > 1 ? new Set(names) : null;
}

// Whether the token is a word after a dot or a key, by the tokens beside it.
function isBareWord(kinds, i) {
  return kinds[i - 1] === 27 || (kinds[i + 1] === 25 && (kinds[i - 1] === 22 || kinds[i - 1] === 24));
}

// Why a list is outside the comparison (RULES T11), or nothing.
function outside(kinds, flags) {
  let operand = false; // the token before ends an operand
  for (let i = 0; i < kinds.length; i++) {
    const k = kinds[i];
    if (k === 22 && kinds[i - 1] === 29) return 'a block as body';
    if (k === 22 && kinds[i - 1] === 19) return 'a method';
    if ((k === 14 || k === 15 || k === 35) && !isBareWord(kinds, i)) return 'await, yield or new';
    if (k === 13 && operand) return 'a regular expression after an operand';
    if ((k === 60 || k === 67) && !operand) return 'a slash where an operand is due';
    if (kinds[i - 1] === 27) operand = true;
    else if (k === 36 || k === 37) operand = operand && !flags[i];
    else operand = isName(k) || (k >= 7 && k <= 13) || k === 19 || k === 21 || k === 23;
  }
  return null;
}

// Whether the brackets match: what is put in parentheses must not close them.
function balanced(kinds) {
  const open = [];
  for (const k of kinds) {
    if (k === 18 || k === 20 || k === 22) open.push(k + 1);
    else if ((k === 19 || k === 21 || k === 23) && open.pop() !== k) return false;
  }
  return open.length === 0;
}

// Why a list for the pattern entry is outside: as a parameter it would be another number of parameters, a rest, or none.
function outsidePattern(kinds, flags) {
  if (!balanced(kinds)) return 'a binding whose brackets do not match';
  let depth = 0;
  for (const k of kinds) {
    if (k === 24 && depth === 0) return 'a comma beside a binding';
    depth += (k === 18 || k === 20 || k === 22) - (k === 19 || k === 21 || k === 23);
  }
  return kinds[0] === 28 ? 'a rest as a binding' : outside(kinds, flags);
}

module.exports = { spell, outside, outsidePattern, balanced, isName, twice };
