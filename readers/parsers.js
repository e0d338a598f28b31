// The outside judges: each takes a list's text and says whether it is one expression up to the end. true, false, or null if it gave up.
// acorn and babel give the tree too.
'use strict';
const vm = require('vm');
const fs = require('fs');
const os = require('os');
const path = require('path');
const { execFileSync } = require('child_process');

const WHERE = ['/usr/share/nodejs/', ''];

// A module of Debian's or of Node's own path, or nothing.
function load(name) {
  for (const where of WHERE) {
    try {
      return require(where + name);
    } catch (error) {
      if (error.code !== 'MODULE_NOT_FOUND') throw error;
    }
  }
  return null;
}

const acorn = load('acorn');
const babel = load('@babel/parser');
const typescript = load('typescript');

const gaveUp = (error) => error instanceof RangeError || (error && error.name === 'InternalError');

// Runs a parser that throws where it refuses: its result, false, or null. No stack is written down with what it throws: that would take long.
function attempt(parse) {
  const limit = Error.stackTraceLimit;
  Error.stackTraceLimit = 0;
  try {
    return parse();
  } catch (error) {
    if (gaveUp(error)) return null;
    if (error instanceof SyntaxError || error.pos !== undefined || error.loc !== undefined) return false;
    throw error;
  } finally {
    Error.stackTraceLimit = limit;
  }
}

const ACORN = { ecmaVersion: 'latest', sourceType: 'script', preserveParens: true };
const BABEL = { sourceType: 'script', createParenthesizedExpressions: true, plugins: ['estree'], attachComment: false };

// acorn stops after the expression: it must have come to the end.
function byAcorn(text, Parser) {
  if (!acorn) return null;
  return attempt(() => {
    const tree = (Parser || acorn.Parser).parseExpressionAt(text, 0, ACORN);
    return tree.end === text.length ? tree : false;
  });
}

const byBabel = (text) => attempt(() => babel.parseExpression(text, BABEL));

// In parentheses, since a list may start with `{`; its brackets match.
const wrapped = (text) => '(' + text + '\n)';

const byV8 = (text) => attempt(() => !!new vm.Script(wrapped(text)));

function byTypescript(text) {
  return attempt(() => {
    const file = typescript.createSourceFile('a.js', wrapped(text), typescript.ScriptTarget.Latest, false, typescript.ScriptKind.JS);
    return file.parseDiagnostics.length === 0;
  });
}

// SpiderMonkey by gjs: many texts at once.
function bySpiderMonkey(texts) {
  const folder = fs.mkdtempSync(path.join(os.tmpdir(), 'judges-'));
  const file = path.join(folder, 'texts');
  fs.writeFileSync(file, texts.map((text) => JSON.stringify(wrapped(text))).join('\n'));
  const out = execFileSync('gjs', [path.join(__dirname, 'spidermonkey.js'), file], { maxBuffer: 1 << 28, encoding: 'latin1' });
  fs.rmSync(folder, { recursive: true });
  return texts.map((_, i) => ({ 0: false, 1: true })[out[i]] ?? null);
}

const hasSpiderMonkey = (() => {
  try {
    execFileSync('gjs', ['--version'], { stdio: 'ignore' });
    return true;
  } catch {
    return false;
  }
})();

const versions = {
  acorn: acorn && acorn.version,
  babel: babel && load('@babel/parser/package.json').version,
  V8: process.versions.v8,
  TypeScript: typescript && typescript.version,
  SpiderMonkey: hasSpiderMonkey ? '102 (gjs)' : null,
};

module.exports = { acorn, babel, typescript, hasSpiderMonkey, byAcorn, byBabel, byV8, byTypescript, bySpiderMonkey, versions };
