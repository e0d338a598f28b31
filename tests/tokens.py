#!/usr/bin/env python3
"""Prints what the program tokens_test must print (crates/tokens_test/stdout); with --input, what it reads (crates/tokens_test/stdin).

Written from the rules (docs/RULES.md): the classes from T5 to T8, the causes and the checks from A1 to A14.
Nothing here was taken from the Rattle code.
"""
import struct
import sys

from kinds import LAST

LARGEST = 2 ** 64 - 1


def span(*ranges):
    found = set()
    for part in ranges:
        found |= set(range(part[0], part[-1] + 1))
    return found


CLASSES = [
    span((1, 5)),  # names
    span((1, 10), (14, 17), (32, 35), (52,), (53,)),  # words
    span((8, 13)),  # literals
    span((1, 5), (14,), (15,)),  # the three-way answer's names
    {2, 5, 6, 53},  # and its modifiers
]


def byte_at(values, at):
    return values[at] if at < len(values) else 0


def length(kinds, flags):
    return (1, 0) if not kinds or len(kinds) > 2048 else None


def flag_length(kinds, flags):
    return (2, 0) if len(flags) != len(kinds) else None


def bad_flag(kinds, flags):
    return next(((5, place) for place, flag in enumerate(flags) if flag not in (0, 1)), None)


def bad_kind(kinds, flags):
    return next(((6, place) for place, kind in enumerate(kinds) if kind == 0 or kind > LAST), None)


def nesting(kinds, flags):
    depth = 0
    for place, kind in enumerate(kinds):
        if kind in (18, 20, 22):
            depth += 1
        elif kind in (19, 21, 23):
            depth = max(depth - 1, 0)
        if depth > 64:
            return (7, place)
    return None


CHECKS = [('length', length), ('flag length', flag_length), ('flags', bad_flag), ('kinds', bad_kind), ('nesting', nesting)]


# Lists for the checks: runs of kinds and runs of flags, each a count and a byte.
LISTS = [
    # lengths
    ('', ''), ('', '1*0'), ('1*1', '1*0'), ('1*1', ''), ('1*1', '2*0'),
    ('2048*1', '2048*0'), ('2048*1', '2047*0'), ('2048*1', '2049*0'), ('2049*1', '2049*0'),
    # flags: the limits, the first of several
    ('3*1', '1*0 1*1 1*0'), ('3*1', '1*1 1*2 1*3'), ('3*1', '2*0 1*255'),
    # kinds: likewise
    ('1*1 1*78 1*1', '3*0'), ('1*1 1*79 1*0', '3*0'), ('2*1 1*0', '3*0'), ('1*255 1*79 1*0', '3*0'),
    # the last place of a full list
    ('2048*78', '2048*1'), ('2047*78 1*79', '2047*1 1*2'),
    # brackets: 64 and 65 open, of each sort
    ('64*18', '64*0'), ('65*18', '65*0'), ('64*18 1*20', '65*0'), ('64*18 1*22', '65*0'),
    # any closing token takes one away
    ('64*22 1*21 1*18', '66*0'), ('64*22 1*21 2*18', '67*0'),
    ('64*20 2*23 1*1 2*22', '69*0'), ('64*20 2*23 1*1 3*22', '70*0'),
    # and none below 0
    ('3*19 64*18', '67*0'), ('3*23 65*18', '68*0'), ('2*18 3*21 64*20', '69*0'), ('2*18 3*19 65*20', '70*0'),
]


def runs(text):
    return [tuple(int(part) for part in run.split('*')) for run in text.split()]


def spread(text):
    return [byte for count, byte in runs(text) for _ in range(count)]


def rows():
    """The program's input: of each list four runs of kinds and three of flags, as numbers of two bytes."""
    found = b''
    for kinds, flags in LISTS:
        for text, places in ((kinds, 4), (flags, 3)):
            for count, byte in (runs(text) + [(0, 0)] * places)[:places]:
                found += struct.pack('<HH', count, byte)
    return found


def checks(kinds, flags):
    found = [(name, check(spread(kinds), spread(flags))) for name, check in CHECKS]
    label = ('kinds ' + kinds).rstrip() + (', flags ' + flags).rstrip()
    print('%s: %s' % (label, ', '.join(name + (' refused %d %d' % answer if answer else ' fine') for name, answer in found)))


if sys.argv[1:] == ['--input']:
    sys.stdout.buffer.write(rows())
    sys.exit()

for k in range(256):
    print('byte %d: %s' % (k, ''.join('01'[k in members] for members in CLASSES)))

for low, high in [(8, 13), (0, 255), (13, 8), (8, 8)]:
    print('range %d to %d: %s' % (low, high, ''.join('01'[low <= k <= high] for k in (0, 7, 8, 13, 14, 255))))

for values, at, more in [
    ([7, 1, 9], 0, 0), ([7, 1, 9], 0, 2), ([7, 1, 9], 1, 1), ([7, 1, 9], 2, 1), ([7, 1, 9], 3, 0), ([7, 1, 9], 1, LARGEST),
    ([7, 1, 9], LARGEST, 1), ([7, 1, 9], LARGEST, LARGEST),
]:
    here, later = byte_at(values, at), byte_at(values, at + more)
    print('place %d and %d more: %d %d %d %d' % (at, more, here, here, later, later))

for number in range(1, 15):
    print('cause %d %d' % (number, 100 + number))

for kinds, flags in LISTS:
    checks(kinds, flags)
