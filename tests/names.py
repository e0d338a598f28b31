#!/usr/bin/env python3
"""Holds the kinds of tokens and of rows, in the code and in the definitions, to the list that all scripts read (readers/kinds.txt).

Each has a name for each number; a name of the definitions is that of the code in its spelling (L_PAREN and LParen); and the comment beside a kind of
token has its text, or says which texts it can have.
"""
import os
import re
import sys

from kinds import TOKENS, part

ROOT = os.path.join(os.path.dirname(os.path.abspath(__file__)), '..')
# How the comment says a kind with many texts; those of a modifier are listed.
MANY = {'IDENT': 'a name', 'STR': 'a string', 'NUMBER': 'a number', 'REG_EXP': 'a regular expression', 'RESERVED': 'another reserved word'}
wrong = []


def found(path, pattern):
    """What a pattern finds in a file of the repository, line by line."""
    return re.findall(pattern, open(os.path.join(ROOT, path), encoding='utf-8').read(), re.M)


def said(name, texts):
    """What the comment beside a kind of token says."""
    return MANY.get(name) or ('a modifier name: ' if name == 'MODIFIER' else '') + ' '.join(texts)


def held(path, there, wanted):
    """A list of a file must be the one that is wanted."""
    if there != wanted:
        wrong.append('%s has other kinds than readers/kinds.txt: %s' % (path, sorted(set(there) ^ set(wanted))))


def spelled(pairs):
    """Names as both the code and the definitions have them, without their spelling."""
    return [(int(number), name.replace('_', '').lower(), *more) for number, name, *more in pairs]


tokens = [(str(number), name, said(name, texts)) for number, name, texts in TOKENS]
rows = [(str(number), name) for number, name, _ in part('rows')]
if [number for number, _, _ in TOKENS] != list(range(1, len(TOKENS) + 1)):
    wrong.append('readers/kinds.txt does not number the tokens from 1 on')
CODE, ROW_CODE = 'crates/tokens/src/kind.rt', 'crates/rows/src/row.rt'
DEFINED, ROW_DEFINED = 'crates/tokens/specs/Kind.antt', 'crates/rows/specs/Row.antt'
held(CODE, [(number, name, text) for name, number, text in found(CODE, r'^pub const ([A-Z0-9_]+): u8 = (\d+); // (.*)$')], tokens)
held(ROW_CODE, [(number, name) for name, number in found(ROW_CODE, r'^pub const ([A-Z0-9_]+): u32 = (\d+);$')], rows)
held(DEFINED, spelled((number, name, text) for name, text, number in found(DEFINED, r'^abbrev pub (\S+) : ℕ  -- (.*)\n\1 = (\d+)$')), spelled(tokens))
held(ROW_DEFINED, spelled((number, name) for name, number in found(ROW_DEFINED, r'^(\w+) = (\d+)$')), spelled(rows))
if wrong:
    print('\n'.join(wrong))
    print('0 passed, %d failed' % len(wrong))
    sys.exit(1)
print('tests/names.py: %d kinds of tokens and %d of rows, by the same names and numbers in the list, the code and the definitions' % (len(tokens), len(rows)))
