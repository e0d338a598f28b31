#!/usr/bin/env python3
"""Prints what the program operators_test must print (crates/operators_test/stdout).

The levels are those of RULES O1 and the tiers of ECMA-262 13.6 to 13.13; the mappings are the arms of the five
functions of the crate's operator.rs, in its order. Nothing here was taken from the Rattle code.
"""
from kinds import KIND

LEVELS = [
    '??', '||', '&&', '|', '^', '&', '== === != !==', '< > <= >= in instanceof As Satisfies', '<< >> >>>', '+ -', '* / %', '**',
]

# The arms of each function of operator.rs, by their tokens. Spelled there: Eq2, Neq, Eq3, Neq2, LAngle, LtEq, RAngle, GtEq, ..
BINARY = '== != === !== < <= > >= << >> >>> + - * / % | ^ & in instanceof **'
UNARY = '- + ! ~ typeof void delete'
LOGICAL = '|| && ??'
UPDATE = '++ --'
ASSIGNMENT = '= += -= *= /= %= <<= >>= >>>= |= ^= &= &&= ||= ??= **='


def places(text):
    return {KIND[word]: place for place, word in enumerate(text.split(), 1)}


level = {KIND[word]: number for number, words in enumerate(LEVELS, 1) for word in words.split()}
mappings = [('binary', BINARY), ('unary', UNARY), ('logical', LOGICAL), ('update', UPDATE), ('assignment', ASSIGNMENT)]
for k in range(256):
    parts = ['level %d' % level.get(k, 0)]
    parts.append('in an expression %d' % (0 if k in (KIND['As'], KIND['Satisfies']) else level.get(k, 0)))
    for name, text in mappings:
        parts.append('%s %d' % (name, places(text).get(k, 0)))
    print('%d: %s' % (k, ', '.join(parts)))
