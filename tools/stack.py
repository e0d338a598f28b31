#!/usr/bin/env python3
"""Bounds the stack of every function of include/vuolmaset.h from the archive's object code, and holds what the header and the Rust crate say to it.

    tools/stack.py [ARCHIVE]          crates/vuolmaset/out/libvuolmaset.a, which `rt lib` in crates/vuolmaset writes
    tools/stack.py --ways FILE ..     writes the bounds to a file too, by how many brackets or rows there are, for bench/harness's `search`
    tools/stack.py --uncut ..         the same with no call counted: it must fail with a cycle, or else cycles are not seen

From the object code (frames.py): the functions, the depth of the stack at each instruction, the calls. What is on the stack at any time is a way in
the graph of calls, and takes the depths at the calls of the way, and 8 bytes for each return address.

From the source: which calls can recur, and what ends them. Without these calls, which are counted, the graph must have no cycle.
- A call that stands behind an opening bracket, in one of OPENERS. The bracket is open until the call returns, and a list with more than 64 open is
  refused before it is read (refusal 7), so at most 64 such calls are on the stack. The source must show the bracket: an opener is called where one was
  found, or turns back itself where there is none. And so must the object code: a test that found one stands before each such call.
- A step of a conversion to a row below, in one of STEPPERS. A tree has at most 2,048 rows, so at most 2,047 steps are on the stack. In a reading
  each is counted as half a bracket: what is converted was read from the list behind the brackets that are open now, and of two steps from row to
  row at least one goes below an Array, an Object or a Paren, whose bracket was open beside them.
Functions of the source are inlined in others. A call in the object code counts as the cheapest way in the source from the one function to the other,
which can make the bound too large, and never too small.

The bound is the longest way with at most so many counted calls. It holds for the archive that is read, on x86-64. It rests on objdump, these scripts
and what is said above, and is no theorem. In it are the return address of the call itself, 128 bytes that a function may use past its stack pointer,
and OUTSIDE for a function that the archive wants of its surroundings. Not in it is what a caller passes on the stack, which is in its own frame, and
what a signal takes.
"""
import argparse
import os
import re
import sys

import frames
from frames import Wrong

ROOT = os.path.join(os.path.dirname(os.path.abspath(__file__)), '..')
BRACKETS, ROWS, RED_ZONE = 64, 2048, 128

# The functions of a crate whose calls back into their cycle all stand behind an opening bracket, and those that call themselves for a row below.
OPENERS = {'parse': ['args', 'array', 'barray', 'bobject', 'head', 'inside', 'key', 'object']}
STEPPERS = {'targets': ['judge', 'turn']}
# The kinds of `(`, `[` and `{`.
OPENING = [18, 20, 22]
# Bytes for a function of the surroundings: more than glibc takes, with the search for the function when it is called first.
OUTSIDE = {'memset': 4096, 'memcpy': 4096, 'memmove': 4096}
# Which constant speaks of a function; what a counted call takes of what runs out, halves of a bracket or rows; and how much of it there is.
CONSTANTS = dict.fromkeys(['read', 'pattern', 'three_way', 'subtree', 'precedence', 'expression_precedence'], 'STACK')
CONSTANTS['convert'] = 'CONVERT_STACK'
BUDGETS = {'STACK': ({'opens': 2, 'steps': 1}, 2 * BRACKETS), 'CONVERT_STACK': ({'opens': 0, 'steps': 1}, ROWS - 1)}


class Source:
    """The calls between the functions of a crate, and which of them are counted."""

    def __init__(self, crate, uncut):
        folder = os.path.join(ROOT, 'crates', crate, 'src')
        crates = os.listdir(os.path.join(ROOT, 'crates'))
        texts = [open(os.path.join(folder, name), encoding='utf-8').read() for name in sorted(os.listdir(folder)) if name.endswith('.rt')]
        parts = re.split(r'^\s*(?:pub )?(?:extern "C" )?fn (\w+)', re.sub(r'//.*', '', '\n'.join(texts)), flags=re.M)
        self.crate, self.bodies = crate, dict(zip(parts[1::2], parts[2::2]))
        if len(self.bodies) != len(parts) // 2:
            raise Wrong('crates/%s: two functions of one name' % crate)
        self.calls = {}
        for name, body in self.bodies.items():
            found = re.findall(r'(?<![\w:.])((?:\w+::)*)(\w+)\(', body)
            self.calls[name] = {call for path, call in found if call in self.bodies and path.split('::')[0] not in crates}
        self.counted = {}
        for name in [] if uncut else OPENERS.get(crate, []) + STEPPERS.get(crate, []):
            self.count(name)

    def reached(self, name):
        """The functions that a function comes to."""
        found, waiting = set(), [name]
        while waiting:
            new = self.calls[waiting.pop()] - found
            found |= new
            waiting += new
        return found

    def count(self, name):
        """Counts the calls of an opener or a stepper back into its cycle."""
        if name not in self.bodies:
            raise Wrong('crates/%s has no function %s' % (self.crate, name))
        back = {call for call in self.calls[name] if name in self.reached(call)}
        if name in OPENERS.get(self.crate, []):
            self.stands_at_bracket(name, back)
            self.counted.update({(name, call): 'opens' for call in back})
        elif name in back:
            self.counted[name, name] = 'steps'

    def stands_at_bracket(self, name, back):
        """An opener turns back where there is no opening bracket, before it calls on; or the last test before each call of it has found one."""
        body = self.bodies[name]
        turns_back = re.search(r'!= kind::L_(PAREN|BRACK|CURLY) \{\s*return\b', body)
        if turns_back and all(turns_back.end() < re.search(r'\b%s\(' % call, body).start() for call in back):
            return
        for caller, text in self.bodies.items():
            for site in re.finditer(r'(?<![\w:.])%s\(' % name, text):
                arms = re.findall(r'\S+(?= =>)|(?<=== )kind::\w+(?= \{)', text[:site.start()])
                if not arms or arms[-1] not in ('kind::L_PAREN', 'kind::L_BRACK', 'kind::L_CURLY'):
                    raise Wrong('crates/%s: %s calls %s, and not where it has found an opening bracket' % (self.crate, caller, name))

    def cost(self, start, goal, costs):
        """What the cheapest way from a function to another takes; none if there is no way."""
        best, waiting = {}, {start: 0}
        while waiting:
            name = min(waiting, key=waiting.get)
            at = waiting.pop(name)
            for call in self.calls[name]:
                more = at + costs.get(self.counted.get((name, call)), 0)
                if more < best.get(call, more + 1):
                    best[call] = waiting[call] = more
        return best.get(goal)


def source_name(name):
    """The crate and the function of a symbol. The compiler puts a dot and more behind the name of a copy that it makes."""
    words = name.split('.')[0].split('::')
    return words[0], words[-1]


class Graph:
    """The functions with their calls, and what each call takes of what runs out."""

    def __init__(self, functions, sources, costs):
        self.sources, self.costs = sources, costs
        self.own = {**{function.name: function.frame for function in functions}, **OUTSIDE}
        self.calls = {name: set() for name in self.own}
        for function in functions:
            for depth, target in function.calls.values():
                outside = isinstance(target, str)
                self.calls[function.name].add((depth, target if outside else target.name, 0 if outside else self.cost(function, target)))

    def cost(self, function, target):
        """What a call takes: nothing, unless the source counts every way from the one to the other."""
        ways = []
        for crate, name in map(source_name, function.names):
            for other, call in map(source_name, target.names):
                if crate != other or crate not in self.sources:
                    return 0
                ways.append(self.sources[crate].cost(name, call, self.costs))
        found = [way for way in ways if way is not None]
        if not found:
            raise Wrong('%s calls %s, and the source has no such way' % (function.name, target.name))
        return min(found)

    def reached(self, entry):
        found, waiting = {entry}, [entry]
        while waiting:
            new = {call for _, call, _ in self.calls[waiting.pop()]} - found
            found |= new
            waiting += new
        return sorted(found)

    def order(self, entry):
        """What an entry comes to, callees first but for counted calls. A cycle without a counted call is an error."""
        done, under_way = [], []

        def visit(name):
            if name in under_way:
                raise Wrong('a cycle of calls that nothing ends: ' + ' > '.join(under_way[under_way.index(name):] + [name]))
            if name not in done:
                under_way.append(name)
                for call in sorted(call for _, call, cost in self.calls[name] if cost == 0):
                    visit(call)
                done.append(under_way.pop())

        for name in self.reached(entry):
            visit(name)
        return done

    def longest(self, entry, most):
        """The longest ways from all that an entry comes to, by how much they may take: bytes, and the call that the way goes on with."""
        order, ways = self.order(entry), []
        for left in range(most + 1):
            ways.append({})
            for name in order:
                best = self.own[name], None
                for depth, call, cost in self.calls[name]:
                    if cost <= left:
                        best = max(best, (depth + ways[left - cost][call][0], (call, cost)), key=lambda way: way[0])
                ways[left][name] = best
        return ways

    def to_counted(self, name):
        """The longest way from a function to where the next counted call leads, or none."""
        ends = [depth if cost else depth + more for depth, call, cost in self.calls[name] for more in [0 if cost else self.to_counted(call)] if more is not None]
        return max(ends, default=None)


def see_brackets(functions, graph):
    """Each counted call of an opener must stand behind a test in the object code that found an opening bracket: in its function, or before each call of
    an opener that is a function there."""
    open_to = {function.name: frames.before_test(function, OPENING) for function in functions}
    plain = {target.name for function in functions for at, (_, target) in function.calls.items()
             if not isinstance(target, str) and at in open_to[function.name]}
    seen = 0
    for function in functions:
        crate, name = source_name(function.name)
        for at, (_, target) in function.calls.items():
            if crate in OPENERS and not isinstance(target, str) and source_name(target.name)[0] == crate and graph.cost(function, target):
                if at in open_to[function.name] and not (name in OPENERS[crate] and function.name not in plain):
                    raise function.wrong(at, 'a counted call of %s, and no test before it has found an opening bracket' % target.name)
                seen += 1
    return seen


def short(name):
    return name.split('::')[-1]


def number(n):
    return '{:,}'.format(n) if isinstance(n, int) else n or ''


def way_words(names):
    """A way as words: what repeats is said once."""
    words, at = [], 0
    while at < len(names):
        best = 1, 1
        for length in range(1, 13):
            times = 1
            while names[at + times * length:at + (times + 1) * length] == names[at:at + length]:
                times += 1
            if times > 1 and times * length > best[0] * best[1]:
                best = length, times
        length, times = best
        part = ' > '.join(map(short, names[at:at + length]))
        words.append(part if times == 1 else '%d x (%s)' % (times, part))
        at += length * times
    return ' > '.join(words)


def follow(ways, name, left):
    """The names on a longest way."""
    names = [name]
    while ways[left][name][1]:
        name, cost = ways[left][name][1]
        left -= cost
        names.append(name)
    return names


def table(functions, graph):
    """A row for each function: its frame, what it calls, and the longest ways from its start to where a counted call leads, and to an end."""
    lines = [['function', 'frame', 'calls', 'counted calls', 'longest way to a counted call', 'to an end']]
    for function in functions:
        calls = graph.calls[function.name]
        plain, counted = [', '.join(sorted({short(call) for _, call, cost in calls if bool(cost) == which})) for which in (False, True)]
        try:
            to_end = graph.longest(function.name, 0)[0][function.name][0]
            to_counted = graph.to_counted(function.name)
        except Wrong:
            to_counted = to_end = 'cycle'
        lines.append([function.name, number(function.frame), plain, counted, number(to_counted), number(to_end)])
    widths = [max(len(line[k]) for line in lines) for k in range(6)]
    right = (1, 4, 5)
    show = ['| ' + ' | '.join(cell.rjust(w) if k in right else cell.ljust(w) for k, (cell, w) in enumerate(zip(line, widths))) + ' |' for line in lines]
    rule = '|' + '|'.join('-' * (w + 1) + ':' if k in right else '-' * (w + 2) for k, w in enumerate(widths)) + '|'
    return '\n'.join([show[0], rule] + show[1:])


def said(constant):
    """What the header and the Rust crate say."""
    header = open(os.path.join(ROOT, 'include/vuolmaset.h'), encoding='utf-8').read()
    crate = open(os.path.join(ROOT, 'bindings/rust/src/lib.rs'), encoding='utf-8').read()
    one = re.search(r'^#define VUOLMASET_%s (\d+)$' % constant, header, re.M)
    other = re.search(r'^pub const %s: usize = ([\d_]+);$' % constant, crate, re.M)
    if not one or not other or one[1] != other[1].replace('_', ''):
        raise Wrong('%s is not the same whole number in include/vuolmaset.h and bindings/rust/src/lib.rs' % constant)
    return int(one[1])


def bounds(entry, functions, sources):
    """Says the bound of an entry, and whether it is at most what is said; and gives the bounds by brackets or by rows."""
    constant = CONSTANTS.get(entry[len('vuolmaset_'):])
    if constant is None:
        raise Wrong('no constant speaks of it')
    costs, most = BUDGETS[constant]
    ways = Graph(functions, sources, costs).longest(entry, most)
    found = [8 + way[entry][0] + RED_ZONE for way in ways][::costs['opens'] or 1]
    fits = found[-1] <= said(constant)
    words = '- %s: at most %s bytes, %s VUOLMASET_%s, by %s'
    print(words % (entry, number(found[-1]), 'within' if fits else 'OVER', constant, way_words(follow(ways, entry, most))))
    return fits, found


def main():
    arguments = argparse.ArgumentParser(description=__doc__, formatter_class=argparse.RawDescriptionHelpFormatter)
    arguments.add_argument('archive', nargs='?', default=os.path.join(ROOT, 'crates/vuolmaset/out/libvuolmaset.a'))
    arguments.add_argument('--ways', metavar='FILE')
    arguments.add_argument('--uncut', action='store_true')
    asked = arguments.parse_args()
    try:
        functions = frames.read_archive(asked.archive, OUTSIDE)
        sources = {crate: Source(crate, asked.uncut) for crate in {**OPENERS, **STEPPERS}}
        graph = Graph(functions, sources, BUDGETS['STACK'][0])
        print(table(functions, graph))
        print('\n%d counted calls stand behind a test that has found an opening bracket, all that there are.\n' % see_brackets(functions, graph))
    except Wrong as wrong:
        return 'no bound: %s' % wrong
    good, ways = True, ''
    for entry in [function.name for function in functions if function.name.startswith('vuolmaset_')]:
        try:
            fits, found = bounds(entry, functions, sources)
            good &= fits
            ways += ' '.join([entry[len('vuolmaset_'):]] + [str(n) for n in found]) + '\n'
        except Wrong as wrong:
            good = False
            print('- %s: no bound: %s' % (entry, wrong))
    if asked.ways:
        open(asked.ways, 'w').write(ways)
    return 0 if good else 1


if __name__ == '__main__':
    sys.exit(main())
