"""Reads the functions of an archive for x86-64 by objdump: the depth of the stack at each of their instructions, and their calls.

All that could make the depth or the calls unsure is an error: an instruction that can be met at two depths or is never reached; a call or a jump
that is indirect, but for a table of jumps within a function; one that goes where nothing is known of; the address of a function that is taken.
"""
import os
import re
import subprocess

PREFIXES = {'addr32', 'bnd', 'cs', 'data16', 'ds', 'es', 'fs', 'gs', 'lock', 'notrack', 'rep', 'repe', 'repne', 'repnz', 'repz', 'ss'}


class Wrong(Exception):
    """There is no bound, and why."""


class Function:
    """A function of the object code."""

    def __init__(self, section, start, size):
        self.section, self.start, self.end = section, start, start + size
        self.names = []     # more than one where equal functions were merged
        self.code = {}      # address: (mnemonic, operands, relocation), in order
        self.after = {}     # address: the next one
        self.table = set()  # the addresses in its tables of jumps
        self.tables = {}    # of each table, by its section and place: where each of its places leads
        self.ways = {}      # address: where the way goes on in the function
        self.calls = {}     # address: (bytes on the stack where the callee starts, the callee)
        self.frame = 0      # the most bytes that it puts on the stack itself

    @property
    def name(self):
        return self.names[0]

    def wrong(self, at, why):
        return Wrong('%s+0x%x: %s %s: %s' % (self.name, at - self.start, *self.code[at][:2], why))


def objdump(archive, *words):
    run = subprocess.run(['objdump', '-w', *words, archive], capture_output=True, text=True, env={**os.environ, 'LC_ALL': 'C'})
    if run.returncode or run.stdout.count('file format elf64-x86-64') != 1:
        raise Wrong('%s is not one object file for x86-64 %s' % (archive, run.stderr.strip()))
    return run.stdout.split('\n')


def named(word):
    """The symbol of a relocation, and what is added to it."""
    name, offset = re.fullmatch(r'(.*?)([-+]0x[0-9a-f]+)?', word).groups()
    return name, int(offset or '0', 16)


def read_symbols(archive):
    """The functions of an archive by section and address."""
    functions = {}
    for line in objdump(archive, '-t'):
        symbol = re.fullmatch(r'([0-9a-f]{16}) .{6}F (\S+)\t([0-9a-f]{16}) +(?:\.hidden )?(.*)', line)
        if symbol:
            place = symbol[2], int(symbol[1], 16)
            functions.setdefault(place, Function(*place, int(symbol[3], 16))).names.append(symbol[4])
    return functions


def read_code(archive, functions):
    """Puts the instructions into the functions. Each must be in one."""
    section = function = None
    for line in objdump(archive, '-d', '-r', '-z', '--no-show-raw-insn'):
        if line.startswith('Disassembly of section '):
            section = line[len('Disassembly of section '):-1]
        found = re.fullmatch(r' *([0-9a-f]+):\t([^\t]*)(?:\t[0-9a-f]+: (\w+)\t(\S+))?', line)
        if found:
            at = int(found[1], 16)
            function = functions.get((section, at), function)
            if function is None or function.section != section or not function.start <= at < function.end:
                raise Wrong('%s+0x%x: code of no function' % (section, at))
            words = re.sub(r' *[<#].*', '', found[2]).split()
            while len(words) > 1 and words[0] in PREFIXES:
                words.pop(0)
            function.code[at] = (words[0], ' '.join(words[1:]), (found[3], found[4]) if found[3] else None)
        elif re.match(r'\s*[0-9a-f]+:', line):
            raise Wrong('not understood: ' + line)
    for function in functions.values():
        function.after = dict(zip(function.code, list(function.code)[1:]))


def read_tables(archive, functions):
    """Finds the tables of jumps: data that leads into a function, from an address on that the function's code names. No other data may lead to code."""
    starts = {}
    for function in functions.values():
        for mnemonic, _, relocation in function.code.values():
            if mnemonic == 'lea' and relocation:
                section, offset = named(relocation[1])
                starts.setdefault(section, {})[offset + 4] = function
    code = {name for function in functions.values() for name in [function.section, *function.names]}
    section = None
    for line in objdump(archive, '-r'):
        if line.startswith('RELOCATION RECORDS FOR ['):
            section = line[len('RELOCATION RECORDS FOR ['):-2]
        found = re.fullmatch(r'([0-9a-f]{16}) (\w+) +(\S+)', line)
        if not found or re.match(r'\.(text|eh_frame|debug|llvm_addrsig)', section) or named(found[3])[0] not in code:
            continue
        at, (name, offset) = int(found[1], 16), named(found[3])
        start = max((start for start in starts.get(section, {}) if start <= at), default=None)
        function = starts.get(section, {}).get(start)
        if function is None or found[2] != 'R_X86_64_PC32' or name != function.section or offset - (at - start) not in function.code:
            raise Wrong('%s+0x%x: an address of %s, and no table of jumps' % (section, at, name))
        function.table.add(offset - (at - start))
        function.tables.setdefault((section, start), {})[(at - start) // 4] = offset - (at - start)


def callee(function, at, functions, outside):
    """Where a call or a jump leads: an address of the function itself, a function, or the name of one that is outside."""
    mnemonic, operands, relocation = function.code[at]
    if operands.startswith('*') or (relocation and relocation[0] not in ('R_X86_64_PLT32', 'R_X86_64_PC32')):
        raise function.wrong(at, 'indirect')
    if relocation:
        name, offset = named(relocation[1])
        for other in functions.values():
            if (name in other.names and offset == -4) or (name == other.section and offset + 4 == other.start):
                return other
        if name not in outside or offset != -4:
            raise function.wrong(at, 'nothing is known of ' + relocation[1])
        return name
    target = int(operands, 16)
    if mnemonic != 'call' and function.start <= target < function.end:
        return target
    if (function.section, target) not in functions:
        raise function.wrong(at, 'into the middle of a function')
    return functions[function.section, target]


def branch(function, at, depth, functions, outside):
    """Where the way goes on in the function after a call or a jump; a call is put down."""
    mnemonic, operands, _ = function.code[at]
    goes_on = [] if mnemonic == 'jmp' else [function.after.get(at)]
    if mnemonic == 'jmp' and operands.startswith('*') and function.table:
        return sorted(function.table)
    target = callee(function, at, functions, outside)
    if isinstance(target, int):
        return [target] + goes_on
    if mnemonic != 'call' and depth:
        raise function.wrong(at, 'leaves the function at the depth %d' % depth)
    function.calls[at] = depth + (8 if mnemonic == 'call' else 0), target
    return goes_on


def step(function, at, depth, functions, outside):
    """The depth after an instruction, and where the way goes on."""
    mnemonic, operands, relocation = function.code[at]
    if mnemonic.startswith('j') or mnemonic == 'call':
        return depth, branch(function, at, depth, functions, outside)
    if relocation and any(named(relocation[1])[0] in [other.section, *other.names] for other in functions.values()):
        raise function.wrong(at, 'the address of a function is taken')
    if mnemonic in ('ret', 'ud2', 'int3', 'hlt'):
        if mnemonic == 'ret' and (depth or operands):
            raise function.wrong(at, 'a return at the depth %d' % depth)
        return depth, []
    plain = re.sub(r'\([^)]*\)', '', operands)
    number = re.fullmatch(r'\$(-?0x[0-9a-f]+),%rsp', operands)
    if mnemonic in ('push', 'pop') and not re.search(r'%[a-z]{2}$|%rsp$', plain):
        depth += 8 if mnemonic == 'push' else -8
    elif mnemonic in ('sub', 'add') and number:
        depth += int(number[1], 16) * (1 if mnemonic == 'sub' else -1)
    elif mnemonic == 'lea' and re.fullmatch(r'-?0x[0-9a-f]+\(%rsp\),%rsp', operands):
        depth -= int(operands.split('(')[0], 16)
    elif re.search(r'%[re]?spl?\b', plain) and not (mnemonic in ('mov', 'cmp', 'test') and re.match(r'%rsp,(?!%rsp)', plain)):
        raise function.wrong(at, 'a frame that is not constant')
    elif re.match('push|pop|leave|enter|loop|sys|int|iret|xbegin|ret|call', mnemonic):
        raise function.wrong(at, 'not understood')
    if depth < 0:
        raise function.wrong(at, 'above the return address')
    return depth, [function.after.get(at)]


def walk(function, functions, outside):
    """Follows all ways through a function."""
    depths, waiting = {}, [(function.start, 0)]
    while waiting:
        at, depth = waiting.pop()
        if at not in function.code:
            raise Wrong('%s: a way leads past its end' % function.name)
        if depths.setdefault(at, depth) != depth:
            raise function.wrong(at, 'met at the depths %d and %d, a frame that is not constant' % (depths[at], depth))
        if at not in function.ways:
            depth, function.ways[at] = step(function, at, depth, functions, outside)
            function.frame = max(function.frame, depth)
            waiting += [(way, depth) for way in function.ways[at]]
    for at, (mnemonic, operands, _) in function.code.items():
        if at not in depths and not mnemonic.startswith('nop') and (mnemonic, operands) != ('xchg', '%ax,%ax'):
            raise function.wrong(at, 'never reached')


def chosen(function, at):
    """Of a jump by a table: where each value leads, if the six lines before it are those that take the value to a place in the table, and no way leads
    between them. The value less a constant is the place: `add`, `cmp`, `ja`, `lea` of the table, `movslq`, `add`."""
    lines = list(function.code)
    before = lines[max(lines.index(at) - 6, 0):lines.index(at)]
    texts = [' '.join(function.code[line][:2]) for line in before]
    found = re.fullmatch(r'add \$0x(?P<less>[0-9a-f]+),%e(?P<place>\w\w);cmp \$0x[0-9a-f]+,%e(?P=place);ja [0-9a-f]+;'
                         r'lea 0x0\(%rip\),%(?P<table>\w+);movslq \(%(?P=table),%r(?P=place),4\),%r(?P=place);add %(?P=table),%r(?P=place)', ';'.join(texts))
    inner = set(before[1:]) | {at}
    if not found or any(way in inner and function.after.get(line) != way for line, ways in function.ways.items() for way in ways):
        return None
    section, offset = named(function.code[before[3]][2][1])
    leads = {}
    for place, way in function.tables.get((section, offset + 4), {}).items():
        leads.setdefault(way, set()).add((place - int(found['less'], 16)) % 2 ** 32)
    return leads


def before_test(function, constants):
    """The addresses that a function comes to with no test before them that found something equal to one of the constants, and by no jump of a table
    that leads there for such values alone."""
    found, waiting = set(), [(function.start, False)]
    while waiting:
        at, tested = state = waiting.pop()
        if state in found:
            continue
        found.add(state)
        mnemonic, operands, _ = function.code[at]
        ways = function.ways[at]
        if mnemonic.startswith('cmp'):
            tested = operands.split(',')[0] in ['$0x%x' % constant for constant in constants]
        elif tested and mnemonic in ('je', 'jne'):
            ways = [way for way in ways if (way == function.after.get(at)) == (mnemonic == 'je')]
        elif not mnemonic.startswith(('mov', 'lea')):
            tested = False
            leads = chosen(function, at) if mnemonic == 'jmp' and operands.startswith('*') else None
            if leads:
                ways = [way for way, values in leads.items() if not values <= set(constants)]
        waiting += [(way, tested) for way in ways]
    return {at for at, _ in found}


def read_archive(archive, outside):
    """The functions of an archive, with their frames and calls. Those that may be called and are not in it are named."""
    functions = read_symbols(archive)
    read_code(archive, functions)
    read_tables(archive, functions)
    for function in functions.values():
        walk(function, functions, outside)
    return sorted(functions.values(), key=lambda function: function.name)
