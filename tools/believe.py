#!/usr/bin/env python3
"""Lists what has to be believed: every file of specs/, by group of crates.txt and by crate, with its lines, and the sums.

    tools/believe.py            prints the list
    tools/believe.py --write    writes it into docs/AUDIT.md, between the two marks there
    tools/believe.py --check    fails if docs/AUDIT.md or README.md says something else, or if a file of specs/ has a law

Specifications are definitions: records, data, and functions that are `abbrev` or `unfoldable`. Any other declaration cannot be computed with; it is a law and belongs into
proofs/. Only the crate of the statements has such, each a theorem under its name, proved in one line by a law of another crate.
"""
import glob
import os
import re
import sys

ROOT = os.path.join(os.path.dirname(os.path.abspath(__file__)), '..')
AUDIT = 'docs/AUDIT.md'
README = 'README.md'
STATEMENTS = 'demands'
BEGIN = '<!-- tools/believe.py --write -->'
END = '<!-- end -->'
GROUP = re.compile(r'^# (Believe|Run|Prove|Ship):')
DEFINING = ('abbrev ', 'unfoldable ', 'record ', 'pub record ', 'data ', 'pub data ', 'infix', 'use ', 'pub use ', 'mutual', 'module ')
DECLARED = re.compile(r'^(?:pub )?([^\s:(){}=]+)\s*:\s')


def read(name):
    with open(os.path.join(ROOT, name), encoding='utf-8') as file:
        return file.read()


def groups():
    """The groups of crates.txt with their crates, but for the programs of the tests."""
    found, crates = [], None
    for line in read('crates.txt').split('\n'):
        heading = GROUP.match(line)
        if heading:
            crates = []
            found.append((heading.group(1), crates))
        elif line.startswith('#'):
            crates = None
        elif ':' in line and crates is not None:
            crates.append(line.split(':')[0].split()[0])
    return found


def files(crate):
    """The files of a crate's specs/ with their lines, in the order of its list."""
    folder = os.path.join('crates', crate, 'specs')
    if not os.path.exists(os.path.join(ROOT, folder)):
        return []
    names = re.findall(r'^pub mod (\w+)$', read(folder + '/Lib.antt'), re.M) + ['Lib']
    return [(name, read('%s/%s.antt' % (folder, name)).count('\n')) for name in names]


def is_content(line):
    """Neither empty nor a comment, an import or an entry of a list of files."""
    return bool(line.strip()) and not line.lstrip().startswith(('--', 'use ', 'pub use ', 'unfoldable pub use ', 'pub mod '))


def counts():
    """How many files, lines and lines of content there are."""
    texts = [read('crates/%s/specs/%s.antt' % (crate, name)) for _, crates in groups() for crate in crates for name, _ in files(crate)]
    return len(texts), sum(text.count('\n') for text in texts), sum(map(is_content, '\n'.join(texts).split('\n')))


def table():
    """The list, as the table of docs/AUDIT.md."""
    lines = ['| | Crate | Files of `specs/` and their lines | Lines |', '|---|---|---|--:|']
    for heading, crates in groups():
        for crate in crates:
            found = files(crate)
            if found:
                lines.append('| %s | `%s` | %s | %d |' % (heading, crate, ', '.join('%s %d' % entry for entry in found), sum(count for _, count in found)))
    number, total, content = counts()
    lines.append('| all | | %d files, of which %s lines are content | %s |' % (number, '{:,}'.format(content), '{:,}'.format(total)))
    return lines


def parts(text):
    """A document's text before, between and after the two marks."""
    before, _, rest = text.partition(BEGIN + '\n')
    middle, _, after = rest.partition(END)
    return before, middle, after


def laws(crate, name):
    """The declarations of a file that are no definitions, and of a file of statements those that are not proved in one line."""
    text = read('crates/%s/specs/%s.antt' % (crate, name))
    inside, found = False, []
    for line in text.split('\n'):
        if line and not line.startswith(' '):
            inside = line.startswith('module ')
        bare = line[2:] if inside and line.startswith('  ') else line
        if bare.startswith((' ', '--') + DEFINING):
            continue
        declared = DECLARED.match(bare)
        if declared and not (crate == STATEMENTS and re.search(r'^%s = \w+\.%s$' % ((re.escape(declared.group(1)),) * 2), text, re.M)):
            found.append('crates/%s/specs/%s.antt: %s is a law' % (crate, name, declared.group(1)))
    return found


def wrong():
    """What does not hold."""
    number, total, _ = counts()
    found = []
    if parts(read(AUDIT))[1] != '\n'.join(table()) + '\n':
        found.append('%s: the files of specs/ are others; tools/believe.py --write writes them' % AUDIT)
    if '%d files, %s lines' % (number, '{:,}'.format(total)) not in read(README):
        found.append('%s does not say %d files, %s lines' % (README, number, '{:,}'.format(total)))
    for path in glob.glob(os.path.join(ROOT, 'crates/*/specs/*.antt')):
        crate, name = path.split(os.sep)[-3], os.path.basename(path)[:-5]
        found += laws(crate, name)
        if name not in [listed for listed, _ in files(crate)]:
            found.append('crates/%s/specs/%s.antt is not listed' % (crate, name))
    return found


def main(words):
    if '--write' in words:
        before, _, after = parts(read(AUDIT))
        with open(os.path.join(ROOT, AUDIT), 'w', encoding='utf-8') as file:
            file.write(before + BEGIN + '\n' + '\n'.join(table()) + '\n' + END + after)
    elif '--check' in words:
        found = wrong()
        if found:
            print('\n'.join(found))
            print('0 passed, %d failed' % len(found))
            sys.exit(1)
        print('tools/believe.py: %d files of specs/, %d lines; none has a law' % counts()[:2])
    else:
        print('\n'.join(table()))


if __name__ == '__main__':
    main(sys.argv[1:])
