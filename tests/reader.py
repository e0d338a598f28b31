#!/usr/bin/env python3
"""The sheets of the program reader_test, and what it must print.

    tests/reader.py --input    the program's standard input
    tests/reader.py            what it must print

The sheets: P1 to P10 and G1 to G7 of docs/RULES.md, to the last word; those of docs/DECISIONS.md (tests/readings.py); the limits of the checks 1 to 7;
and the longest chains, whose rows are written out here by counting, one formula a family. Nothing here reads a sheet.
"""
import sys

from kinds import kinds as of
from readings import cases, tokens

KINDS, RECORDS, ABANDONED, WORDS, SUM = 1, 2, 4, 8, 16
MODULUS = 4294967291


def total(rows, words):
    sum_ = 7
    for w in [w for row in rows for w in row] + [0] * (words - 6 * len(rows)):
        sum_ = (sum_ * 31 + w) % MODULUS
    return sum_


SHEETS = []  # (pattern, what, kinds, flags, row words, record words, line)


def sheet(kinds, flags, line, what=0, pattern=False, rows=None, records=None):
    SHEETS.append((pattern, what, kinds, flags, 6 * len(kinds) if rows is None else rows, 2 * len(kinds) if records is None else records, line))


def refused(kinds, number, place, flags=None, **lent):
    sheet(kinds, [0] * len(kinds) if flags is None else flags, 'refused %d %d' % (number, place), **lent)


def whole(kinds, rows, records, abandoned):
    """A sheet whose rows are told to the last word."""
    words = 6 * len(kinds) + 6
    line = 'read %d A %d R%s' % (len(rows), abandoned, ''.join(' %d@%d' % r for r in records))
    if len(rows) < 40:
        sheet(kinds, [0] * len(kinds), line + ''.join('\n' + ' '.join(map(str, row)) for row in rows), ABANDONED | RECORDS | WORDS, rows=words,
              records=2 * len(kinds) + 2)
    else:
        words = min(words, 12300)
        sheet(kinds, [0] * len(kinds), line + ' sum %d' % total(rows, words), ABANDONED | RECORDS | SUM, rows=words)


# P1 to P10
whole(tokens('[a, b] = c')[0], [(40, 1, 1, 2, 0, 1), (40, 3, 3, 4, 0, 1), (42, 0, 0, 5, 2, 3), (1, 6, 6, 7, 0, 1), (25, 5, 0, 7, 2, 5)], [], 0)
whole(tokens('(a, b)')[0], [(1, 1, 1, 2, 0, 1), (1, 3, 3, 4, 0, 1), (27, 2, 1, 4, 2, 3), (4, 0, 0, 5, 1, 4)], [], 1)
whole(tokens('(a, b) => a')[0], [(30, 1, 1, 2, 0, 1), (30, 3, 3, 4, 0, 1), (1, 6, 6, 7, 0, 1), (28, 5, 0, 7, 3, 4)], [], 0)
whole(tokens('((a)) = b')[0], [(40, 2, 2, 3, 0, 1), (41, 1, 1, 4, 1, 2), (41, 0, 0, 5, 1, 3), (1, 6, 6, 7, 0, 1), (25, 5, 0, 7, 2, 5)], [], 1)
refused(tokens('({a}) = b')[0], 9, 0)
whole(tokens('{...[a]} = b')[0], [(40, 3, 3, 4, 0, 1), (42, 2, 2, 5, 1, 2), (44, 1, 1, 5, 1, 3), (43, 0, 0, 6, 1, 4), (1, 7, 7, 8, 0, 1), (25, 6, 0, 8, 2, 6)], [(3, 2)], 0)
whole(tokens('[...a,] = b')[0], [(40, 2, 2, 3, 0, 1), (44, 1, 1, 3, 1, 2), (42, 0, 0, 5, 1, 3), (1, 6, 6, 7, 0, 1), (25, 5, 0, 7, 2, 5)], [(4, 0)], 0)
refused(tokens('[...a, b] = c')[0], 10, 1)
whole(tokens('a - b + c')[0], [(1, 0, 0, 1, 0, 1), (1, 2, 2, 3, 0, 1), (22, 1, 0, 3, 2, 3), (1, 4, 4, 5, 0, 1), (22, 3, 0, 5, 2, 5)], [], 0)
whole(tokens('a ?? b || c')[0], [(1, 0, 0, 1, 0, 1), (1, 2, 2, 3, 0, 1), (1, 4, 4, 5, 0, 1), (23, 3, 2, 5, 2, 3), (23, 1, 0, 5, 2, 5)], [(6, 1)], 0)

# G1 to G7
whole(tokens('a + b * c')[0], [(1, 0, 0, 1, 0, 1), (1, 2, 2, 3, 0, 1), (1, 4, 4, 5, 0, 1), (22, 3, 2, 5, 2, 3), (22, 1, 0, 5, 2, 5)], [], 0)
whole(tokens('a * b + c')[0], [(1, 0, 0, 1, 0, 1), (1, 2, 2, 3, 0, 1), (22, 1, 0, 3, 2, 3), (1, 4, 4, 5, 0, 1), (22, 3, 0, 5, 2, 5)], [], 0)
whole(tokens('a ** b ** c')[0], [(1, 0, 0, 1, 0, 1), (1, 2, 2, 3, 0, 1), (1, 4, 4, 5, 0, 1), (22, 3, 2, 5, 2, 3), (22, 1, 0, 5, 2, 5)], [], 0)
whole(tokens('a < b == c')[0], [(1, 0, 0, 1, 0, 1), (1, 2, 2, 3, 0, 1), (22, 1, 0, 3, 2, 3), (1, 4, 4, 5, 0, 1), (22, 3, 0, 5, 2, 5)], [], 0)
whole(tokens('a && b || c')[0], [(1, 0, 0, 1, 0, 1), (1, 2, 2, 3, 0, 1), (23, 1, 0, 3, 2, 3), (1, 4, 4, 5, 0, 1), (23, 3, 0, 5, 2, 5)], [], 0)
whole(tokens('a = b = c')[0], [(40, 0, 0, 1, 0, 1), (40, 2, 2, 3, 0, 1), (1, 4, 4, 5, 0, 1), (25, 3, 2, 5, 2, 3), (25, 1, 0, 5, 2, 5)], [], 0)
whole(tokens('a ? b : c ? d : e')[0], [(1, 0, 0, 1, 0, 1), (1, 2, 2, 3, 0, 1), (1, 4, 4, 5, 0, 1), (1, 6, 6, 7, 0, 1), (1, 8, 8, 9, 0, 1), (24, 5, 4, 9, 3, 4),
                                       (24, 1, 0, 9, 3, 7)], [], 0)

# the sheets of docs/DECISIONS.md
for text, pattern, kinds, flags, want in cases():
    if want[0] == 'refused':
        sheet(kinds, flags, 'refused %d %d' % want[1:], pattern=pattern)
        continue
    _, rows, records, abandoned = want
    if rows is None and records is None and abandoned is None:
        raise ValueError(text)
    what, line = 0, ''
    if abandoned is not None:
        what |= ABANDONED
        line += ' A %d' % abandoned
    if rows is not None:
        what |= KINDS
        line += ' K ' + ' '.join(map(str, rows))
    if records is not None:
        what |= RECORDS
        line += ' R' + ''.join(' %d@%d' % r for r in records)
    sheet(kinds, flags, 'read%s' % line, what, pattern)

# the checks, in their order: each sheet fails one of them and all that come after it that it can
NAME, NOT, EQUALS, ARROW, QUESTION, COLON, OPEN, CLOSE, LBRACK, RBRACK = of('Ident ! = => ? : ( ) [ ]')
refused([], 1, 0)
refused([NAME] * 2049, 1, 0, flags=[2] * 3, rows=0, records=0)
refused([0], 2, 0, flags=[], rows=0, records=0)
refused([0], 2, 0, flags=[2, 2], rows=0, records=0)
refused([0], 3, 0, flags=[2], rows=5, records=0)
refused([0], 4, 0, flags=[2], rows=6, records=1)
refused([0], 5, 0, flags=[2])
refused([NAME, 0], 5, 1, flags=[0, 2])
refused([NAME, 0], 6, 1)
refused([79], 6, 0)
refused([LBRACK] * 65 + [255], 6, 65)
refused([LBRACK] * 65, 7, 64)
refused([RBRACK] * 3 + [LBRACK] * 66, 7, 67)
refused([LBRACK] * 64, 8, 64)
refused([NAME, NAME], 8, 1)
refused([NAME, NAME], 3, 0, rows=11)
refused([NAME, NAME], 4, 0, records=3)
refused([NAME, NAME], 8, 1, rows=12300, records=4100)

# the longest sheets
DEEP = 64
whole([LBRACK] * DEEP + [RBRACK] * DEEP, [(5, i, i, 2 * DEEP - i, int(i < DEEP - 1), DEEP - i) for i in reversed(range(DEEP))], [], 0)
n = 2047
whole([NOT] * n + [NAME], [(1, n, n, n + 1, 0, 1)] + [(19, i, i, n + 1, 1, n - i + 1) for i in reversed(range(n))], [], 0)
n = 1023
pairs = lambda sign: [NAME, sign] * n + [NAME]
chain = lambda leaf, top: [(leaf, 2 * i, 2 * i, 2 * i + 1, 0, 1) for i in range(n)] + [(1, 2 * n, 2 * n, 2 * n + 1, 0, 1)] + [
    (top, 2 * i + 1, 2 * i, 2 * n + 1, 2, 2 * (n - i) + 1) for i in reversed(range(n))]
whole(pairs(EQUALS), chain(40, 25), [], 0)
whole(pairs(ARROW), chain(30, 28), [], 0)
PLUS, POWER, COMMA = of('+ ** ,')
whole(pairs(POWER), chain(1, 22), [], 0)
whole(pairs(PLUS), [(1, 0, 0, 1, 0, 1)] + [row for i in range(1, n + 1) for row in ((1, 2 * i, 2 * i, 2 * i + 1, 0, 1), (22, 2 * i - 1, 0, 2 * i + 1, 2, 2 * i + 1))], [], 0)
whole(pairs(COMMA), [(1, 2 * i, 2 * i, 2 * i + 1, 0, 1) for i in range(n + 1)] + [(27, 1, 0, 2 * n + 1, n + 1, n + 2)], [], 0)
n = 511
whole([NAME, QUESTION, NAME, COLON] * n + [NAME], [(1, 2 * i, 2 * i, 2 * i + 1, 0, 1) for i in range(2 * n + 1)] + [
    (24, 4 * i + 1, 4 * i, 4 * n + 1, 3, 3 * (n - i) + 1) for i in reversed(range(n))], [], 0)

# 64 nested heads that fail: ( a = ( a = .. a ) )
n = 64
rows = [(40, 3 * i + 1, 3 * i + 1, 3 * i + 2, 0, 1) for i in range(n)] + [(1, 3 * n, 3 * n, 3 * n + 1, 0, 1)]
for i in reversed(range(n)):
    end, size = 4 * n - i, 3 * (n - i)
    rows += [(25, 3 * i + 2, 3 * i + 1, end, 2, size), (4, 3 * i, 3 * i, end + 1, 1, size + 1)]
whole([OPEN, NAME, EQUALS] * n + [NAME] + [CLOSE] * n, rows, [], n)

if __name__ == '__main__':
    if '--input' in sys.argv:
        for pattern, what, kinds, flags, rows, records, line in SHEETS:
            head = bytes([int(pattern), what])
            for number in len(kinds), len(flags), rows, records, 0:
                head += bytes([number % 256, number // 256])
            sys.stdout.buffer.write(head + bytes(kinds) + bytes(flags))
    else:
        for entry in SHEETS:
            print(entry[-1])
