#!/usr/bin/env python3
"""Prints questions of readers/twin/src/protocol.rs on trees, heads and operators: conversions and subtrees over trees that were read and then
changed at random, well-formed or not; the three-way answer at random places; the lookup of every kind.

    questions.py SEED COUNT LISTS READER      LISTS makes lists, READER reads them into the trees
"""
import random
import subprocess
import sys

# The expression that a target row was made from.
BACK = {40: 1, 41: 4, 42: 5, 43: 7, 44: 10, 45: 25, 46: 16, 47: 17, 48: 13, 49: 11, 50: 12}


def changed(rng, words):
    """A tree with some targets turned back, some words changed, or cut off."""
    words, rows = list(words), len(words) // 6
    if rng.random() < 0.3:
        for row in range(rows):
            words[6 * row] = BACK.get(words[6 * row], words[6 * row]) if rng.random() < 0.9 else words[6 * row]
    if rng.random() < 0.15:
        at = 6 * rng.randrange(rows) + rng.choice([0, 0, 0, 2, 4, 5])
        words[at] = rng.choice([rng.randrange(52), words[at] + 1, max(0, words[at] - 1)])
    return words[:rng.randrange(len(words) + 1)] if rng.random() < 0.02 else words


def main():
    seed, count, lists, reader = sys.argv[1:]
    rng = random.Random(int(seed))
    made = ''.join(subprocess.run([lists, sort, seed, '0', count, '60'], capture_output=True, text=True, check=True).stdout for sort in ('random', 'pattern'))
    made = made.replace('p ', 'r ')
    answers = subprocess.run([reader], input=made, capture_output=True, text=True, check=True).stdout
    for question, answer in zip(made.splitlines(), answers.splitlines()):
        _, kinds, flags = question.split()
        print('t', kinds, flags, rng.randrange(len(kinds) // 2 + 1), rng.randrange(2), rng.randrange(2))
        if answer.startswith('read'):
            words = changed(rng, [int(word) for word in answer.split(':')[1].split()])
            rows = len(words) // 6
            row = rng.choice([max(rows - 1, 0)] * 3 + [rng.randrange(rows + 1)])
            room = max(0, 2 * rows + rng.choice([0, 0, 0, 3, 5, -1]))
            print('c', row, room, *words)
            print('s', row, *words)
    for kind in range(256):
        print('o', kind)


if __name__ == '__main__':
    main()
