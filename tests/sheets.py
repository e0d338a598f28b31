#!/usr/bin/env python3
"""Holds a reader behind the lines of readers/twin/src/protocol.rs to the sheets of tests/readings.py, to P1 to P10 of docs/RULES.md, to the
checks 1 to 7 with every limit from both sides, and to conversions and parts of trees.

    tests/sheets.py READER [WORD..]
"""
import subprocess
import sys

from readings import cases, tokens

# P1 to P10: the text, and what is told of it.
P1 = 'read 5 0 0 : 40 1 1 2 0 1 40 3 3 4 0 1 42 0 0 5 2 3 1 6 6 7 0 1 25 5 0 7 2 5 :'
PROVED_BY = [
    ('(a, b)', ('read', None, [], 1)), ('(a, b) => a', ('read', [30, 30, 1, 28], [], None)),
    ('((a)) = b', ('read', [40, 41, 41, 1, 25], [], 1)), ('({a}) = b', ('refused', 9, 0)), ('{...[a]} = b', ('read', None, [(3, 2)], None)),
    ('[...a,] = b', ('read', None, [(4, 0)], None)), ('[...a, b] = c', ('refused', 10, 1)),
    ('a - b + c', ('read', [1, 1, 22, 1, 22], [], None)), ('a ?? b || c', ('read', None, [(6, 1)], None)),
]


def line(letter, kinds, flags, *more):
    text = lambda numbers: ''.join('%02x' % n for n in numbers) or '-'
    return ' '.join([letter, text(kinds), text(flags)] + [str(m) for m in more])


def told(answer):
    """An answer as readings.py writes it."""
    head, *parts = answer.split(':')
    words = head.split()
    if words[0] == 'refused':
        return ('refused', int(words[1]), int(words[2]))
    if words[0] != 'read':
        return (answer,)
    rows = [int(w) for w in parts[0].split()]
    records = [int(w) for w in parts[1].split()]
    return ('read', rows[0::6], list(zip(records[0::2], records[1::2])), int(words[3]))


def fits(want, got):
    if want[0] == 'refused' or got[0] != 'read':
        return want == got
    return all(w is None or w == g for w, g in zip(want, got))


def checks():
    """The checks 1 to 7: a line and its whole answer."""
    one = [1]
    yield line('r', [], []), 'refused 1 0'
    yield line('r', [], [], 0, 0), 'refused 1 0'
    yield line('r', one * 2049, [0] * 2049), 'refused 1 0'
    yield line('r', one * 2049, [0]), 'refused 1 0'
    yield line('r', one, [0, 0]), 'refused 2 0'
    yield line('r', one, []), 'refused 2 0'
    yield line('r', one, [0], 5, 2), 'refused 3 0'
    yield line('r', one, [0], 5, 1), 'refused 3 0'
    yield line('r', one, [0], 6, 1), 'refused 4 0'
    yield line('r', one, [0], 6, 2), 'read 1 0 0 : 1 0 0 1 0 1 :'
    yield line('r', [0, 1, 79], [0, 0, 2]), 'refused 5 2'
    yield line('r', [1, 79, 0], [0, 1, 0]), 'refused 6 1'
    yield line('r', [18] * 65 + [79], [0] * 66), 'refused 6 65'
    yield line('r', [18] * 65, [0] * 65), 'refused 7 64'
    yield line('r', [19, 21, 23] + [18, 20, 22] * 21 + [18, 18], [0] * 68), 'refused 7 67'
    yield line('r', [18] * 64, [0] * 64), 'refused 8 64'
    yield line('r', [1, 57] * 1024, [0] * 2048), 'refused 8 2048'
    yield line('r', [1] + [57, 1] * 1023, [0] * 2047, 6 * 2047, 2 * 2047 - 1), 'refused 4 0'


def deep():
    """64 brackets and 2,048 tokens that are read: a line and the start of its answer."""
    yield line('r', [18] * 64 + [1] + [19] * 64, [0] * 129), 'read 65 0 1 :'
    yield line('r', [20] * 64 + [21] * 64, [0] * 128), 'read 64 0 0 :'
    yield line('r', [58] * 2047 + [1], [0] * 2048), 'read 2048 0 0 :'
    yield line('r', [1, 63] * 1023 + [1], [0] * 2047), 'read 2047 0 0 :'
    yield line('r', [1, 29] * 1023 + [1], [0] * 2047), 'read 2047 0 0 :'
    yield line('r', [1, 26, 1, 25] * 511 + [1], [0] * 2045), 'read 1534 0 0 :'


def trees():
    """Conversions and parts: a line and its whole answer."""
    a = '1 0 0 1 0 1'
    array = '1 1 1 2 0 1 5 0 0 3 1 2'
    yield 'c 0 2 ' + a, 'read 1 0 0 : 40 0 0 1 0 1 :'
    yield 'c 0 1 ' + a, 'refused 4 0'
    yield 'c 1 2 ' + a, 'refused 14 0'
    yield 'c 0 2', 'refused 1 0'
    yield 'c 0 2 1 2 3', 'refused 13 0'
    yield 'c 0 9 ' + ' '.join([a] * 2049), 'refused 1 0'
    yield 'c 1 4 ' + array, 'read 2 0 0 : 40 1 1 2 0 1 42 0 0 3 1 2 :'
    yield 'c 0 2 ' + array, 'read 1 0 0 : 40 1 1 2 0 1 5 0 0 3 1 2 :'
    yield 'c 0 2 40 7 8 9 0 1', 'refused 9 8'
    yield 'c 0 2 9 7 8 9 0 1', 'refused 9 8'
    yield 'c 0 2 1 0 0 1 0 2', 'refused 13 0'
    yield 'c 2 6 1 4 4 5 0 1 10 3 3 5 1 2 6 9 9 9 1 3', 'read 3 1 0 : 40 4 4 5 0 1 44 3 3 5 1 2 42 9 9 9 1 3 : 4 9'
    yield 's 1 ' + array, 'part 0 12'
    yield 's 0 ' + array, 'part 0 6'
    yield 's 2 ' + array, 'part 0 0'
    yield 's 0 1 2 3', 'part 0 0'
    yield 'o 3', 'level 8 0'
    yield 'o 62', 'level 12 12'
    yield 'o 255', 'level 0 0'
    yield 't 02121c01 00000000 0 0 0', 'answer 1'
    yield 't 02121c02 00000000 0 0 0', 'answer 2'
    yield 't 02121c01 00010000 0 0 0', 'answer 0'
    yield 't 01 00 1 0 0', 'refused 14 0'


def main():
    questions, wants = [], []
    for text, pattern, kinds, flags, want in cases():
        questions.append(line('p' if pattern else 'r', kinds, flags))
        wants.append((text, lambda got, want=want: fits(want, told(got)), want))
    for text, want in PROVED_BY:
        questions.append(line('r', *tokens(text)))
        wants.append((text, lambda got, want=want: fits(want, told(got)), want))
    for question, want in [(line('r', *tokens('[a, b] = c')), P1)] + list(checks()) + list(trees()):
        questions.append(question)
        wants.append((question[:60], lambda got, want=want: got == want, want))
    for question, want in deep():
        questions.append(question)
        wants.append((question[:60], lambda got, want=want: got.startswith(want), want))
    answers = subprocess.run(sys.argv[1:], input='\n'.join(questions) + '\n', capture_output=True, text=True, check=True).stdout.split('\n')
    wrong = [(text, want, got[:200]) for (text, fine, want), got in zip(wants, answers) if not fine(got)]
    for text, want, got in wrong:
        print('%s: %s, and not %s' % (text, got, want))
    print('%d passed, %d failed' % (len(wants) - len(wrong), len(wrong)))
    sys.exit(1 if wrong or len(answers) != len(wants) + 1 else 0)


if __name__ == '__main__':
    main()
