#!/usr/bin/env python3
"""Sheet files, and what the program `sheet` and the program printout_test must print for them. Nothing here reads a sheet.

    tests/sheet_files.py --example NAME   the file examples/NAME.sheet, made from the tokens of examples/NAME.js
    tests/sheet_files.py --p1             the file of the sheet P1 (RULES F4)
    tests/sheet_files.py --longest        the longest file of two blocks, 8,204 bytes: 4,096 tokens
    tests/sheet_files.py --input          the standard input of printout_test
    tests/sheet_files.py                  what printout_test must print

The input is a list of files, each after six bytes, low byte first: how many bytes it has (two), and how many bytes are lent for the text
(four).
"""
import os
import re
import sys

from kinds import KIND, KIND_OF
from readings import SIGNS, tokens
import reader

ROOT = os.path.dirname(os.path.dirname(os.path.abspath(__file__)))
LARGEST = 4096
ROOM = 196608
TOKEN = re.compile(r'''(\s+)|("[^"\n]*"|'[^'\n]*')|(\d+(?:\.\d+)?)|([A-Za-z_$][\w$]*)|(''' + '|'.join(map(re.escape, SIGNS)) + ')')


def javascript(text):
    """The kinds and flags of a JavaScript text: names, numbers, strings and signs, with the line breaks that stand in it."""
    kinds, flags, at, broken = [], [], 0, 0
    while at < len(text):
        m = TOKEN.match(text, at)
        if not m:
            raise ValueError(text[at:])
        at = m.end()
        space, string, number, word, sign = m.groups()
        if space:
            broken |= int('\n' in space)
            continue
        kinds.append(KIND['Str'] if string else KIND['Number'] if number else KIND_OF.get(word or sign, KIND['Ident']))
        flags.append(broken)
        broken = 0
    flags[0] = 0
    return kinds, flags


def block(kind, payload, length=None):
    """A block: u32 payload length, u16 block kind, payload, little-endian."""
    length = len(payload) if length is None else length
    return length.to_bytes(4, 'little') + kind.to_bytes(2, 'little') + bytes(payload)


def layout(kinds, flags):
    return block(1, kinds) + block(2, flags)


def example(name):
    with open(os.path.join(ROOT, 'examples', name + '.js')) as f:
        return layout(*javascript(f.read()))


FILES = []  # (bytes, bytes lent for the text, what is printed)


def prints(file, text, room=ROOM):
    """A file, and its text; where less is lent than the text takes, the beginning of it and a mark."""
    FILES.append((file, room, text if len(text) <= room else text[:room] + '|short\n'))


def answered(kinds, flags, line):
    prints(layout(kinds, flags), line + '\n')


def text_of(rows, records, abandoned):
    lines = [(len(rows), len(records), abandoned)] + list(rows) + list(records)
    return 'read ' + ''.join(' '.join(map(str, line)) + '\n' for line in lines)


# the sheet P1, printed as RULES F4 has it
P1 = layout(*tokens('[a, b] = c'))
P1_TEXT = '''read 5 0 0
40 1 1 2 0 1
40 3 3 4 0 1
42 0 0 5 2 3
1 6 6 7 0 1
25 5 0 7 2 5
'''
prints(P1, P1_TEXT)

# every sheet of reader_test whose text is known: refusals, and trees that are told to the last word
for pattern, what, kinds, flags, rows, records, line in reader.SHEETS:
    if pattern or line.startswith(('refused 3', 'refused 4')) and kinds != [1, 1] or len(kinds) > LARGEST or rows < 6 * len(kinds) or records < 2 * len(kinds):
        continue
    if line.startswith('refused'):
        answered(kinds, flags, line)
    elif what & reader.WORDS:
        head, *told = line.split('\n')
        count, abandoned, said = re.match(r'read (\d+) A (\d+) R(.*)', head).groups()
        pairs = [tuple(map(int, pair.split('@'))) for pair in said.split()]
        prints(layout(kinds, flags), text_of([tuple(map(int, row.split())) for row in told], pairs, int(abandoned)))

# records 1, 2, 5, 7 and 8, with the rows beside them
prints(layout(*tokens('a ↵ => b')), text_of([(30, 0, 0, 1, 0, 1), (1, 2, 2, 3, 0, 1), (28, 1, 0, 3, 2, 3)], [(1, 1)], 0))
prints(layout(*tokens('(...a = b) => c')), text_of(
    [(30, 2, 2, 3, 0, 1), (1, 4, 4, 5, 0, 1), (34, 3, 2, 5, 2, 3), (33, 1, 1, 5, 1, 4), (1, 7, 7, 8, 0, 1), (28, 6, 0, 8, 2, 6)], [(2, 3)], 0))
prints(layout(*tokens('[a += 1] = b')), text_of(
    [(40, 1, 1, 2, 0, 1), (3, 3, 3, 4, 0, 1), (45, 2, 1, 4, 2, 3), (42, 0, 0, 5, 1, 4), (1, 6, 6, 7, 0, 1), (25, 5, 0, 7, 2, 6)], [(5, 2)], 0))
prints(layout(*tokens('-a ** b')), text_of([(1, 1, 1, 2, 0, 1), (19, 0, 0, 2, 1, 2), (1, 3, 3, 4, 0, 1), (22, 2, 0, 4, 2, 4)], [(7, 2)], 0))
prints(layout(*tokens('{a = 1}')), text_of([(1, 1, 1, 2, 0, 1), (3, 3, 3, 4, 0, 1), (12, 2, 1, 4, 2, 3), (7, 0, 0, 5, 1, 4)], [(8, 2)], 0))

# lists of the limits: none, and more than a reading takes, up to the largest payload
answered([], [], 'refused 1 0')
LONGEST = layout([1] * LARGEST, [0] * LARGEST)
prints(LONGEST, 'refused 1 0\n')
answered([1], [], 'refused 2 0')
answered([], [0], 'refused 1 0')
n = 2047
chain = text_of([(1, n, n, n + 1, 0, 1)] + [(19, i, i, n + 1, 1, n - i + 1) for i in reversed(range(n))], [], 0)
prints(layout([30] * n + [1], [0] * (n + 1)), chain)

# a buffer that is as long as the text, shorter, and empty
for room in len(P1_TEXT), len(P1_TEXT) - 1, 11, 10, 5, 1, 0:
    prints(P1, P1_TEXT, room)
for room in len(chain), len(chain) - 1, 4096:
    prints(layout([30] * n + [1], [0] * (n + 1)), chain, room)
for room in 9, 8, 0:
    prints(b'', 'bad file\n', room)

# damaged files
KINDS_1, FLAGS_1 = tokens('[a, b] = c')
DAMAGED = [P1[:i] for i in range(len(P1))]  # the end is missing
DAMAGED += [P1 + b'\0', P1 + P1, b'\0' + P1, P1[1:]]  # too much, or the beginning is missing
DAMAGED += [block(kind, KINDS_1) + block(2, FLAGS_1) for kind in (0, 2, 3, 255, 256, 257, 65535)]  # not the block of kinds
DAMAGED += [block(1, KINDS_1) + block(kind, FLAGS_1) for kind in (0, 1, 3, 255, 256, 258, 65535)]  # not the block of flags
DAMAGED += [block(2, FLAGS_1) + block(1, KINDS_1), block(1, KINDS_1), block(2, FLAGS_1), P1 + block(3, [1])]  # the wrong blocks
for length in 0, 6, 8, 4097, 7 + 256, 7 + 65536, 7 + 16777216, 4294967295:  # a length that is not the payload's
    DAMAGED += [block(1, KINDS_1, length) + block(2, FLAGS_1), block(1, KINDS_1) + block(2, FLAGS_1, length)]
DAMAGED += [layout([1] * 4097, [0] * 2), layout([1] * 2, [0] * 4097), LONGEST + b'\0', bytes(8205), b'[a, b] = c\n']  # too long; no blocks at all
for file in DAMAGED:
    prints(file, 'bad file\n')

if __name__ == '__main__':
    if '--example' in sys.argv:
        sys.stdout.buffer.write(example(sys.argv[-1]))
    elif '--p1' in sys.argv:
        sys.stdout.buffer.write(P1)
    elif '--longest' in sys.argv:
        sys.stdout.buffer.write(LONGEST)
    elif '--input' in sys.argv:
        for file, room, text in FILES:
            sys.stdout.buffer.write(len(file).to_bytes(2, 'little') + room.to_bytes(4, 'little') + file)
    else:
        for file, room, text in FILES:
            sys.stdout.write(text)
