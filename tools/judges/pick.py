#!/usr/bin/env python3
"""Picks the fixed list: some of the answers that judge.js kept, the same ones from the same files, spread over lengths and sorts of answers.

    pick.py COUNT KEPT.. > tests/judged/lists.txt
"""
import hashlib
import sys

HEADER = '''# Token lists with the answers that were agreed on, to be replayed without any parser: tests/judged/replay.sh READER
# Made by tools/judges/fixed.sh: made lists (all short ones, bracket-matched ones, random ones; `p`: bindings, judged as the one parameter of an arrow) of which acorn 8.8.1, babel 7.20.15,
# V8 11.3 (Node 20) and SpiderMonkey 102 all say what the answer says: clean (read, no record) or not. Of the clean ones each word of each row is that
# of acorn's tree and of babel's. Records, the abandoned count, and a refusal's number and place are no parser's: they are docs/RULES.md's, as two
# readers give them that share no code (the twin, and the plain reader where it comes to the same place).
# A line: the question of readers/twin/src/protocol.rs, " > ", the answer. kinds and flags are hexadecimal.
'''


def sort_of(line):
    question, answer = line.split(' > ')
    letter, kinds = question.split()[:2]
    length = len(kinds) // 2
    size = next(n for n in (1, 2, 3, 4, 5, 8, 16, 32, 64, 128, 2048) if length <= n)
    words = answer.split()
    if words[0] == 'refused':
        return size, letter + ' refused ' + words[1]
    records = answer.split(':')[2].split()
    if records:
        return size, letter + ' records ' + ' '.join(sorted(set(records[0::2])))
    return size, letter + (' clean' if words[3] == '0' else ' clean, abandoned')


def main():
    count = int(sys.argv[1])
    sorts = {}
    for name in sys.argv[2:]:
        with open(name, encoding='ascii') as lines:
            for line in set(lines):
                sorts.setdefault(sort_of(line.strip()), set()).add(line.strip())
    order = {sort: sorted(lines, key=lambda line: hashlib.sha256(line.encode()).digest()) for sort, lines in sorts.items()}
    picked = []
    turn = 0
    while len(picked) < count and any(turn < len(lines) for lines in order.values()):
        # Long ones cost room in the file: only a few of each sort.
        picked += [lines[turn] for (size, _), lines in sorted(order.items()) if turn < len(lines) and (size <= 32 or turn < 12) and (size <= 128 or turn < 2)]
        turn += 1
    print(HEADER + '\n'.join(sorted(picked[:count], key=lambda line: (len(line.split(' > ')[0]), line))))


if __name__ == '__main__':
    main()
