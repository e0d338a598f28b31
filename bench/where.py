#!/usr/bin/env python3
"""Prints where the instructions of the three readers go on the real sheets, a token, by what they do: bench/where.py PROGRAM TOKENS.

PROGRAM is the harness's `count`, which does its work under callgrind; its first three dumps are the readers on the real sheets. TOKENS:
how many tokens those have.
"""
import os, re, subprocess, sys, tempfile

READERS = ['plain twin', 'tuned twin', 'archive']
CLASSES = ['cells on the stack', 'push and pop', 'call and return', 'other memory', 'jumps', 'registers', 'library']
STEP = re.compile(r'^(0x[0-9a-f]+|[+-]\d+|\*) (\S+) (\d+)')


def disassembled(program):
    """The instructions of a program, by their place."""
    text = subprocess.run(['objdump', '-d', '--no-show-raw-insn', program], capture_output=True, text=True, check=True).stdout
    lines = re.findall(r'^ +([0-9a-f]+):\t(\S+)(?: +(.*))?$', text, re.M)
    return {int(place, 16): (name, operands) for place, name, operands in lines}


def class_of(instruction):
    """What an instruction does. What the program itself does not have is a function of the C library."""
    if instruction is None:
        return 'library'
    name, operands = instruction
    if name.startswith(('push', 'pop')):
        return 'push and pop'
    if name.startswith(('call', 'ret')):
        return 'call and return'
    if '(%rsp' in operands or '(%rbp' in operands:
        return 'cells on the stack'
    if name.startswith('j'):
        return 'jumps'
    return 'other memory' if '(' in operands and not name.startswith('lea') else 'registers'


def counted(dump, instructions):
    """How often each class was done, by a dump."""
    sums, place, called = dict.fromkeys(CLASSES, 0), 0, False
    for line in open(dump):
        step = STEP.match(line)
        if line.startswith('calls='):
            called = True
        elif step:
            at = step.group(1)
            place = place if at == '*' else int(at, 16) if at.startswith('0x') else place + int(at)
            if not called:
                sums[class_of(instructions.get(place))] += int(step.group(3))
            called = False
    return sums


def main(program, tokens):
    """The table, a line a class."""
    with tempfile.TemporaryDirectory() as folder:
        out = os.path.join(folder, 'out')
        subprocess.run(['valgrind', '--tool=callgrind', '--quiet', '--dump-instr=yes', '--toggle-collect=counted', '--dump-before=written',
                        '--callgrind-out-file=' + out, program, 'work'], check=True, stdout=subprocess.DEVNULL)
        instructions = disassembled(program)
        columns = [counted('%s.%d' % (out, number), instructions) for number in range(1, len(READERS) + 1)]
    print('Instructions a token on the real sheets, by what they do.\n')
    print('| | ' + ' | '.join(READERS) + ' |\n|---|' + '--:|' * len(READERS))
    for name in CLASSES:
        print('| %s | ' % name + ' | '.join('%.1f' % (column[name] / tokens) for column in columns) + ' |')
    print('| **all** | ' + ' | '.join('**%.1f**' % (sum(column.values()) / tokens) for column in columns) + ' |')


main(sys.argv[1], int(sys.argv[2]))
