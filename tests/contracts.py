#!/usr/bin/env python3
"""Holds the documents to the tree.

    tests/contracts.py            fails if one of these does not hold
    tests/contracts.py --lines    writes the lines of the files that docs/AUDIT.md lists, and their sums

Every public function of a library crate is named in docs/CONTRACTS.md, under the heading of its crate. Every file of a crate that docs/RULES.md or docs/AUDIT.md
cites is there, and so is every name that stands after it: `grammar/specs/Arrow.antt body_of`. Every theorem that README names, and every theorem and wrong program
that docs/CONTRACTS.md names, is there. The files that docs/AUDIT.md lists have as many lines as it says, and
at most 3,300 for each demand. The tables T4 and R5 of the rules are those of the definitions. No line of prose of these documents is longer than 200 characters.
"""
import glob
import os
import re
import sys

from kinds import ORDER, ROWS

ROOT = os.path.join(os.path.dirname(os.path.abspath(__file__)), '..')
CONTRACTS = 'docs/CONTRACTS.md'
AUDIT = 'docs/AUDIT.md'
CITING = ['docs/RULES.md', AUDIT]
MOST = 3300
PROGRAMS = re.compile(r'(_test|_cost)$')
FUNCTION = re.compile(r'^\s*pub (?:extern "C" )?fn (\w+)', re.M)
CITED = re.compile(r'`(\w+/(?:specs|proofs|src)/[\w/]+\.(?:antt|rt))((?: [^\s`]+)*)`')
wrong = []


def text_of(name):
    with open(os.path.join(ROOT, name), encoding='utf-8') as file:
        return file.read()


def sections(text):
    """The text under each heading, by each word of the heading."""
    found = {}
    for part in re.split(r'^##+ ', text, flags=re.M)[1:]:
        heading, _, body = part.partition('\n')
        for word in re.findall(r'\w+', heading):
            found[word] = found.get(word, '') + body
    return found


def defined(text):
    """The names that a file of definitions or of code declares: those before the colon of a type, and those of functions and types."""
    names = set()
    for line in text.split('\n'):
        code = re.split(r'(?:^|\s)(?:--|//)', line)[0]
        if code.lstrip().startswith(('use ', 'pub use ', 'ghost ')):
            continue
        m = re.match(r'\s*(?:(?:pub|abbrev|unfoldable|const)\s+)*([^\s:(){}=λ,]+(?:\s+[^\s:(){}=λ,]+)*)\s*:', code)
        if m:
            names.update(m.group(1).split())
        m = re.match(r'\s*(?:pub )?(?:extern "C" )?(?:record|data|enum|struct|fn) ([^\s(]+)', code)
        if m:
            names.add(m.group(1))
    return names


def all_defined(pattern):
    return set().union(*(defined(text_of(os.path.relpath(path, ROOT))) for path in glob.glob(os.path.join(ROOT, pattern), recursive=True)))


# the public functions, by crate
under = sections(text_of(CONTRACTS))
functions = 0
for path in sorted(glob.glob(os.path.join(ROOT, 'crates/*/src/*.rt'))):
    crate = os.path.relpath(path, ROOT).split(os.sep)[1]
    if PROGRAMS.search(crate):
        continue
    with open(path, encoding='utf-8') as file:
        for name in FUNCTION.findall(file.read()):
            functions += 1
            if not re.search(r'`%s\b' % name, under.get(crate, '')):
                wrong.append('%s: the section of %s does not name %s' % (CONTRACTS, crate, name))

# the files and names that are cited
cited = 0
for document in CITING:
    for path, names in CITED.findall(text_of(document)):
        full = os.path.join('crates', path)
        if not os.path.exists(os.path.join(ROOT, full)):
            wrong.append('%s: there is no %s' % (document, full))
            continue
        there = defined(text_of(full))
        for name in names.split():
            cited += 1
            if name not in there:
                wrong.append('%s: %s defines no %s' % (document, full, name))

# the files that have to be read, with their lines, and the sums of each demand's
LISTED = re.compile(r'^\| `(\S+\.(?:antt|rt))`([^|]*)\| (\d+) \|(.*)\|$')
sums = [0, 0, 0, 0]
made = []
for line in text_of(AUDIT).split('\n'):
    m = LISTED.match(line)
    if m:
        path = os.path.join('crates', m.group(1))
        count = text_of(path).count('\n') if os.path.exists(os.path.join(ROOT, path)) else 0
        marks = [True] + ['x' in cell for cell in m.group(4).split('|')]
        sums = [total + (count if marked else 0) for total, marked in zip(sums, marks)]
        line = '| `%s`%s| %d |%s|' % (m.group(1), m.group(2), count, m.group(4))
    elif line.startswith('| sums |'):
        line = '| sums | %s |' % ' | '.join(map(str, sums))
    made.append(line)
if '--lines' in sys.argv:
    with open(os.path.join(ROOT, AUDIT), 'w', encoding='utf-8') as file:
        file.write('\n'.join(made))
elif '\n'.join(made) != text_of(AUDIT):
    wrong.append('%s: the lines of the files are others; --lines writes them' % AUDIT)
if max(sums[1:]) > MOST:
    wrong.append('%s: a demand rests on %d lines, over %d' % (AUDIT, max(sums[1:]), MOST))

# what README says of them, and the theorems that it names; the theorems and wrong programs that the contracts name
README = text_of('README.md')
for number in (sums[0], max(sums[1:])):
    if '{:,}'.format(number) not in README:
        wrong.append('README.md does not say %s lines' % '{:,}'.format(number))
statements = all_defined('crates/*/specs/*.antt')
for name in re.findall(r'`([a-z]+(?:_[a-z]+)+)`', README[README.index('**Proved,**'):README.index('**Assumed:**')]):
    if name not in statements:
        wrong.append('README.md: there is no %s' % name)
known = statements | all_defined('crates/*/src/*.rt') | {os.path.basename(path)[:-5] for path in glob.glob(os.path.join(ROOT, 'crates/*/must-fail/*.edit'))}
known |= {crate for crate in os.listdir(os.path.join(ROOT, 'crates'))}
for name in re.findall(r'`([a-z0-9]+(?:_[a-z0-9]+)+)`', text_of(CONTRACTS)):
    if name not in known:
        wrong.append('%s: %s is no function, no theorem, no crate and no wrong program' % (CONTRACTS, name))

# the numbers of RULES T4 and R5, held to those of the definitions
def numbered(start, end):
    """The cells of the tables between two rules: (first, last, text)."""
    rules = text_of('docs/RULES.md')
    part = rules[rules.index('**%s.**' % start):rules.index('**%s.**' % end)]
    return [(int(low), int(high), text.replace('\\|', '|')) for low, high, text in re.findall(r'^\| (\d+) to (\d+) \| (.*) \|$', part, re.M)]


def held(rule, table, definitions):
    """Each cell names as many things as its range has numbers, and each number has in the definitions the name that stands here."""
    for low, high, names in table:
        if len(names) != high - low + 1:
            wrong.append('docs/RULES.md %s: %d to %d has %d names' % (rule, low, high, len(names)))
        for number, name in zip(range(low, high + 1), names):
            if definitions.get(number, '').lower() != name.lower():
                wrong.append('docs/RULES.md %s: %d is %s, and the definitions have %s' % (rule, number, name, definitions.get(number)))
    if sum(len(names) for _, _, names in table) != len(definitions):
        wrong.append('docs/RULES.md %s: not as many as the definitions have' % rule)


def token_names(text):
    text = re.sub(r'Ident \([^)]*\)', 'Ident', re.sub(r'a modifier name:.*', 'Modifier', text)).replace('any other reserved word', 'Reserved')
    return [sign or word for sign, word in re.findall(r'`([^`]+)`|(\w+)', text)]


def row_names(text):
    return [re.sub(r' \([^)]*\)', '', name).strip() for name in re.sub(r'the same with [^(]*\((\w+)\)', r'\1', text).split(',')]


held('T4', [(low, high, token_names(text)) for low, high, text in numbered('T4', 'T5')], dict(enumerate(ORDER, 1)))
held('R5', [(low, high, row_names(text)) for low, high, text in numbered('R5', 'R6')], ROWS)

# long lines
for document in [CONTRACTS] + CITING:
    for number, line in enumerate(text_of(document).split('\n'), 1):
        if len(line) > 200 and not (document == AUDIT and line.startswith('|')):
            wrong.append('%s:%d: %d characters' % (document, number, len(line)))

if wrong:
    print('\n'.join(wrong))
    print('0 passed, %d failed' % len(wrong))
    sys.exit(1)
print('tests/contracts.py: %d public functions are named, and %d names that the rules and the map cite are there; a demand rests on at most %d lines' % (functions, cited, max(sums[1:])))
