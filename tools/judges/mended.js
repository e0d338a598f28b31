// acorn 8.8.1 with its known faults mended one by one. A disagreement with acorn that a mend takes away is of the class that the mend names.
'use strict';
const { acorn } = require('../../readers/parsers.js');

const KEYS = ['shorthandAssign', 'trailingComma', 'parenthesizedAssign', 'parenthesizedBind', 'doubleProto'];

// An error that was found first stays.
function merge(into, from) {
  for (const key of KEYS) if (into[key] < 0) into[key] = from[key];
}

// Pending errors of one part of a literal neither hide nor disturb those of another: each part has its own.
const partsApart = (Parser) => class extends Parser {
  parseMaybeAssign(forInit, pending, after) {
    if (!pending) return super.parseMaybeAssign(forInit, pending, after);
    const own = new pending.constructor();
    const node = super.parseMaybeAssign(forInit, own, after);
    merge(pending, own);
    return node;
  }
};

// `{x = 1}` with a member, index or call after it can never become a target.
const memberOverInit = (Parser) => class extends Parser {
  parseExprSubscripts(pending, ...more) {
    if (!pending) return super.parseExprSubscripts(pending, ...more);
    const own = new pending.constructor();
    const node = super.parseExprSubscripts(own, ...more);
    if (node.type === 'MemberExpression' || node.type === 'CallExpression') this.checkExpressionErrors(own, true);
    merge(pending, own);
    return node;
  }
};

// Only the parentheses right after `async` can be those of an async arrow.
const asyncAlone = (Parser) => class extends Parser {
  parseSubscript(base, startPos, startLoc, noCalls, maybeAsyncArrow, ...more) {
    return super.parseSubscript(base, startPos, startLoc, noCalls, maybeAsyncArrow && base.type === 'Identifier', ...more);
  }
};

const all = (Parser) => asyncAlone(memberOverInit(partsApart(Parser)));

// With all mends, and a call is a target: a host may put off that error until the sheet runs (13.15.1); V8, SpiderMonkey and TypeScript do.
const CallsAsTargets = acorn && class extends all(acorn.Parser) {
  toAssignable(node, ...rest) {
    return node && node.type === 'CallExpression' ? node : super.toAssignable(node, ...rest);
  }
  checkLValSimple(node, ...rest) {
    return node.type === 'CallExpression' ? undefined : super.checkLValSimple(node, ...rest);
  }
};

const MENDS = acorn ? [
  ['acorn: an error of one part of a literal is lost or disturbs another', partsApart(acorn.Parser)],
  ['acorn: {x = 1} under a member or index of a target', memberOverInit(acorn.Parser)],
  ['acorn: async()() => x', asyncAlone(acorn.Parser)],
  ['acorn: several of its faults at once', all(acorn.Parser)],
] : [];

module.exports = { MENDS, CallsAsTargets };
