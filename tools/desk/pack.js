// From the text of one expression to the tokens of a sheet, and to a sheet file.
'use strict';
const { KIND, KIND_OF, endsOperand, spell } = require('./kinds.js');
const { BREAK, Problem, pointed } = require('./source.js');

const MOST = 2048;

// What is said of tokens that a sheet cannot hold, by the token's first characters.
const OUTSIDE = [
    ['`', 'a sheet holds no template: join strings with +'],
    [';', 'a sheet is one expression and has no `;`'],
    ['?.', 'a sheet has no `?.`: ask first, as in `a == null ? undefined : a.b`'],
    ['#', 'a sheet has no private names'],
    ['@', 'a sheet has no `@`'],
];

// Debian's tokenizer, from where Debian puts it, or from where ACORN says.
function loadAcorn() {
    const at = process.env.ACORN ?? '/usr/share/nodejs/acorn';
    try {
        return require(at);
    } catch {
        throw new Problem(`the tokenizer acorn is not at ${at}; on Debian: apt-get install node-acorn`);
    }
}

// Whether an operand is due after these tokens: then a `/` begins a regular expression, else it divides.
function operandDue(taken) {
    const last = taken.length - 1;
    if (last < 0) {
        return true;
    }
    const { kind, flag } = taken[last];
    if (last > 0 && taken[last - 1].kind === KIND.DOT) {
        return false;
    }
    if (kind === KIND.PLUS2 || kind === KIND.MINUS2) {
        return flag === 1 || operandDue(taken.slice(0, last));
    }
    return !endsOperand(kind);
}

// acorn's tokenizer over a text; whether a `/` divides is decided here, since acorn looks for statements too.
function tokenizer(acorn, text, taken) {
    class Tokenizer extends acorn.Parser {
        readToken_slash() {
            this.exprAllowed = operandDue(taken);
            return super.readToken_slash();
        }
    }
    return Tokenizer.tokenizer(text, { ecmaVersion: 'latest', sourceType: 'script', allowHashBang: false });
}

// The kind of one of acorn's tokens, or a sentence that says why there is none.
function kindOf(acorn, token, text) {
    const types = acorn.tokTypes;
    const literal = new Map([[types.string, KIND.STR], [types.num, KIND.NUMBER], [types.regexp, KIND.REG_EXP]]).get(token.type);
    if (literal) {
        return literal;
    }
    const word = token.type === types.name || token.type.keyword !== undefined;
    const known = KIND_OF.get(word ? token.value : text);
    if (word && known && text.includes('\\')) {
        return `a sheet cannot tell a spelling with \`\\\` from the word \`${token.value}\` itself`;
    }
    return known ?? (word ? KIND.IDENT : OUTSIDE.find(([start]) => text.startsWith(start))?.[1] ?? `a sheet has no token \`${text}\``);
}

// One more token of a text, or undefined at its end. Stops with the place of what a sheet cannot hold.
function nextToken(acorn, tokens, name, text, taken) {
    const stop = (offset, sentence) => new Problem(pointed(name, text, offset, 'not a sheet', sentence));
    let token;
    try {
        token = tokens.getToken();
    } catch (error) {
        const sentence = error.message.replace(/ \(\d+:\d+\)$/, '');
        const outside = OUTSIDE.find(([start]) => text.startsWith(start, error.pos));
        throw stop(error.pos ?? 0, outside?.[1] ?? sentence);
    }
    if (token.type === acorn.tokTypes.eof) {
        return undefined;
    }
    const { start, end } = token;
    const kind = kindOf(acorn, token, text.slice(start, end));
    if (typeof kind === 'string') {
        throw stop(start, kind);
    }
    if (taken.length === MOST) {
        throw stop(start, 'a sheet has at most 2,048 tokens, and this is one more');
    }
    const before = taken.length === 0 ? undefined : taken[taken.length - 1].end;
    return { kind, flag: before !== undefined && BREAK.test(text.slice(before, start)) ? 1 : 0, start, end };
}

// The tokens of a text: kind, flag, and where each starts and ends in the text.
function tokensOf(name, text) {
    const acorn = loadAcorn();
    const taken = [];
    const tokens = tokenizer(acorn, text, taken);
    for (let token; (token = nextToken(acorn, tokens, name, text, taken)); ) {
        taken.push(token);
    }
    if (taken.length === 0) {
        throw new Problem(`${name}: there is no expression in it`);
    }
    return taken;
}

// A block of a sheet file: u32 payload length, u16 block kind, payload, little-endian.
function block(kind, payload) {
    const head = Buffer.alloc(6);
    head.writeUInt32LE(payload.length, 0);
    head.writeUInt16LE(kind, 4);
    return Buffer.concat([head, Buffer.from(payload)]);
}

// The bytes of a sheet file.
const sheetFile = (kinds, flags) => Buffer.concat([block(1, kinds), block(2, flags)]);

// The sheet file of tokens.
const fileOf = (tokens) => sheetFile(tokens.map((token) => token.kind), tokens.map((token) => token.flag));

// The payload of the block that starts at an offset, or nothing where there is none.
function payloadAt(bytes, at) {
    return at + 6 <= bytes.length ? bytes.subarray(at + 6, at + 6 + bytes.readUInt32LE(at)) : Buffer.alloc(0);
}

// A text for the tokens of a sheet file, in which only their kinds stand: a space between two, a line break where the flag is 1.
function spelled(bytes) {
    const kinds = payloadAt(bytes, 0);
    const flags = payloadAt(bytes, 6 + kinds.length);
    let text = '';
    const tokens = Array.from(kinds, (kind, i) => {
        text += i === 0 ? '' : flags[i] === 1 ? '\n' : ' ';
        const start = text.length;
        text += spell(kind);
        return { kind, flag: flags[i] ?? 0, start, end: text.length };
    });
    return { text, tokens };
}

module.exports = { fileOf, sheetFile, spelled, tokensOf };
