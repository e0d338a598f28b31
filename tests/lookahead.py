#!/usr/bin/env python3
"""Prints what the program lookahead_test must print (crates/lookahead_test/stdout); with --input, what it reads
(crates/lookahead_test/stdin).

`worker` follows is_parenthesized_arrow_function_expression_worker of the crate's arrow.rs statement by statement, over a cursor as there, with
what RULES T2 and L1 add: past the end the kind is 0, and any start but `(`, `<` and Async is False. `entry` runs the checks that RULES X4
names for the three-way entry. Nothing here was taken from the Rattle code.
"""
import sys

from kinds import KIND, LAST, kinds as of

LARGEST = 2 ** 64 - 1
NAMES = {1, 2, 3, 4, 5, 14, 15}
MODIFIERS = {2, 5, 6, 53}
LITERALS = {8, 9, 10, 11, 12, 13}


def worker(kinds, flags, is_ts, is_jsx, at):
    place = at

    def current():
        return kinds[place] if place < len(kinds) else 0

    is_async = current() == KIND['Async']
    if is_async:
        place += 1
        if place < len(flags) and flags[place] == 1:
            return 'F'
        if current() not in of('( <'):
            return 'F'
    first = current()
    place += 1
    second = current()
    if first == KIND['(']:
        if second == KIND[')']:
            place += 1
            third = current()
            if third == KIND[':'] and is_ts and is_async:
                return 'M'
            if third == KIND[':'] and is_ts:
                return 'T'
            return 'T' if third in of('=> {') else 'F'
        if second in of('[ {'):
            return 'M'
        if second == KIND['...']:
            place += 1
            third = current()
            if third == KIND['Ident']:
                return 'T'
            return 'F' if third in LITERALS else 'M'
        place += 1
        third = current()
        if second in MODIFIERS and second != KIND['Async'] and third in NAMES:
            return 'F' if third == KIND['As'] else 'T'
        if second not in NAMES and second != KIND['This']:
            return 'F'
        if third == KIND[':']:
            return 'T'
        if third == KIND['?']:
            place += 1
            return 'T' if current() in of(': , = )') else 'F'
        return 'M' if third in of(', = )') else 'F'
    if first == KIND['<']:
        if second not in NAMES and second != KIND['Const']:
            return 'F'
        if is_jsx:
            if current() == KIND['Const']:
                place += 1
            place += 1
            third = current()
            if third == KIND['Extends']:
                place += 1
                fourth = current()
                if fourth in of('= > /'):
                    return 'F'
                return 'M' if fourth in NAMES else 'T'
            return 'T' if third in of('= ,') else 'F'
        return 'M'
    return 'F'


def checks(kinds, flags, at):
    if not kinds or len(kinds) > 2048:
        return (1, 0)
    if len(flags) != len(kinds):
        return (2, 0)
    for place, flag in enumerate(flags):
        if flag not in (0, 1):
            return (5, place)
    for place, kind in enumerate(kinds):
        if kind == 0 or kind > LAST:
            return (6, place)
    if at >= len(kinds):
        return (14, 0)
    return None


# How a list starts: its tokens before the prefix, their flags and the place that is asked.
STARTS = [
    ('', [], 0),
    ('Async', [0], 0),
    ('Async', [0, 1], 0),
    ('Ident =', [0, 0, 1], 2),
    ('Ident = Async', [0, 0, 1], 2),
]

PREFIXES = [
    # what stands first, then after `(`
    '', '(', '( )', '( [', '( {', '( ...', '( Ident', '( Async', '( As', '( Satisfies', '( Modifier', '( Const', '( This', '( Null',
    '( RegExp', '( Await', '( Yield', '( Reserved', '( (', '( in',
    # after `(` and two tokens
    '( Ident ?', '( Async ?', '( Modifier ?', '( Const ?', '( This ?', '( Str ?', '( Yield ?', '( Modifier As', '( ... Ident', '( ) :',
    # after `<`
    '<', '< Ident', '< Const', '< This', '< Await', '< Ident Extends', '< Async Extends', '< Const Ident', '< Const Const',
    '< Const Extends', '< Const Ident Extends', '< Const ( Extends',
    # an Async that is no start of a head
    'Async (',
]




class Row:
    """A list with a place, as the program reads it: at most eight kinds and eight flags."""

    def __init__(self, kinds, flags, at, is_ts=False, is_jsx=False, sweep=False):
        self.kinds, self.flags, self.at, self.is_ts, self.is_jsx, self.sweep = kinds, flags, at, is_ts, is_jsx, sweep

    def bytes(self):
        place = 255 if self.at == LARGEST else self.at
        head = [len(self.kinds), len(self.flags), place, self.is_ts, self.is_jsx, self.sweep]
        return bytes(head + (self.kinds + [0] * 8)[:8] + (self.flags + [0] * 8)[:8])

    def answer(self, kinds, flags):
        return worker(kinds, flags, self.is_ts, self.is_jsx, self.at)

    def line(self):
        text = 'kinds%s, flags%s, at %d' % (''.join(' %d' % k for k in self.kinds), ''.join(' %d' % f for f in self.flags), self.at)
        text += ', ts' * self.is_ts + ', jsx' * self.is_jsx + ': '
        if not self.sweep:
            refused = checks(self.kinds, self.flags, self.at)
            told = self.answer(self.kinds, self.flags)
            return text + ('refused %d %d' % refused if refused else told) + ', unchecked ' + told
        for k in range(LAST + 1):
            kinds, flags = self.kinds + [k] * (k > 0), self.flags + [0] * (k > 0)
            text += '-' if checks(kinds, flags, self.at) else self.answer(kinds, flags)
        return text


def sweeps():
    """Each prefix after each start, with the flags on and off: at the end of the list, and before each kind."""
    for prefix in PREFIXES:
        for lead, lead_flags, at in STARTS:
            kinds = of(lead) + of(prefix)
            flags = (lead_flags + [0] * 8)[:len(kinds)]
            for is_jsx in (False, True):
                for is_ts in (False, True):
                    yield Row(kinds, flags, at, is_ts, is_jsx, True)


def lists():
    call = of('Async ( Ident )')
    group = of('( Ident )')
    # every byte after `(`, also those that are no kinds
    for k in range(256):
        yield Row([18, k, 19], [0, 0, 0], 0)
    # places inside and outside; flags that are missing, and bytes that are no flags
    for at in (0, 1, 2, 3, 4, LARGEST):
        yield Row(call, [0, 0, 0, 0], at)
        yield Row(call, [], at)
    for flags in ([1, 0, 0, 0], [0, 1, 0, 0], [0, 2, 0, 0], [0, 255, 0, 0], [0, 0, 1, 0]):
        yield Row(call, flags, 0)
    # one check broken: 1, 2, 5, 6, 14
    yield Row([], [], 0)
    yield Row(group, [0, 0], 0)
    yield Row(group, [0, 0, 0, 0], 0)
    yield Row(group, [0, 2, 3], 0)
    yield Row([18, 1, 0], [0, 0, 0], 0)
    yield Row([18, 79, 0], [0, 0, 0], 0)
    yield Row(group, [0, 0, 0], 3)
    # two checks broken: the lower number answers
    yield Row([], [0], 0)
    yield Row([], [2], 0)
    yield Row([], [], 7)
    yield Row([18, 1], [0, 2, 0], 0)
    yield Row([18, 0], [0], 0)
    yield Row([18, 1], [0], 2)
    yield Row([0, 1, 19], [0, 0, 2], 0)
    yield Row([18, 79, 19], [0, 255, 0], 0)
    yield Row(group, [0, 2, 0], 3)
    yield Row([18, 1, 79], [0, 0, 0], 3)


def long(kinds, flags, at):
    refused = checks(kinds, flags, at)
    print('tokens %d, at %d: %s' % (len(kinds), at, 'refused %d %d' % refused if refused else worker(kinds, flags, False, False, at)))


rows = list(sweeps()) + list(lists())
if sys.argv[1:] == ['--input']:
    sys.stdout.buffer.write(b''.join(row.bytes() for row in rows))
    sys.exit()
for row in rows:
    print(row.line())
# 65 open brackets are no matter; 2,048 and 2,049 tokens, the last list of kind 0
long([18] * 65, [0] * 65, 64)
long([18] * 2048, [0] * 2048, 2047)
long([18] * 2049, [0] * 2049, 2047)
long([0] * 2049, [0] * 2049, 2047)
