#!/usr/bin/env python3
"""Gives the repository's own definitions and lemmas today's spelling: words joined by `_` where they were joined by `-`.

    tools/respell.py           rewrites the files below crates/
    tools/respell.py --check   says what it would rewrite, and which names would fall together

Run once, after the toolchain's own script had turned paths and clauses (docs/PORT.md). Names of the toolchain's library keep their dashes, and so do names
that begin with a capital, where a dash joins a fact to a word. In comments only what stands between backquotes is a name.
"""
import glob
import os
import re
import sys

ROOT = os.path.join(os.path.dirname(os.path.abspath(__file__)), '..')
WORD = re.compile(r"[^\s(){}\[\];,.:@%`\"|]+")
DECLARED = re.compile(r"^\s*(?:abbrev |unfoldable |pub |record |data |mod |module )*([^\s(){}\[\];,.:@%`\"|]+)\s*(?:[({].*)?:\s")
FROM_KIT = re.compile(r"^\s*(?:unfoldable )?(?:pub )?(?:ghost )?(?:unfoldable )?use (?:Rattle\.std|Rattle\.core|lib|mathlib|native|borrow|Prim|denote|core)\b(.*)$")
CODE = ('crates/*/specs/**/*.antt', 'crates/*/proofs/**/*.antt', 'crates/*/src/*.rt', 'crates/*/must-fail/*.edit', 'crates/*/wrong/*.edit')


def paths():
    for pattern in CODE:
        yield from sorted(glob.glob(os.path.join(ROOT, pattern), recursive=True))


def read(path):
    with open(path, encoding='utf-8') as file:
        return file.read()


def is_of_a_function(path):
    """A file of the proof of one function: most of its names are made by the check."""
    return re.search(r'/proofs/(?:.*/)?(?:\+[^/]*|[^/]+)/(?:Proof\.antt|Proof/)', path) is not None


def kit_names(text):
    """The names that a file brings in from the toolchain's library."""
    found = set()
    for line in text.split('\n'):
        it = FROM_KIT.match(line)
        if it:
            found |= set(WORD.findall(it.group(1)))
    return found


def own(word):
    return '-' in word.strip('◌-') and not word.startswith('-') and not re.match(r'[A-Z]', word)


def declared():
    """Every name with a dash that a file of definitions or of laws declares."""
    found = set()
    for path in paths():
        if path.endswith('.antt') and not is_of_a_function(path):
            for line in read(path).split('\n'):
                it = DECLARED.match(line.split(' -- ')[0])
                if it and own(it.group(1)):
                    found.add(it.group(1))
    for name in sorted(found):
        if name.startswith('◌') or name.endswith('◌'):
            found.add(name.strip('◌'))
    return found


def turned(path, text, names):
    """A file's text with its names respelled."""
    kept = kit_names(text)
    loose = path.endswith('.antt') and not is_of_a_function(path)
    marks = ' //' if path.endswith('.rt') else ' -- '

    def word(it):
        one = it.group(0)
        if one in kept or not own(one):
            return one
        return one.replace('-', '_') if loose or one in names else one

    def quoted(comment):
        return re.sub(r'`[^`\n]*`', lambda it: WORD.sub(lambda w: w.group(0).replace('-', '_') if w.group(0) in names else w.group(0), it.group(0)), comment)

    lines = []
    for line in text.split('\n'):
        bare = line.lstrip()
        if bare.startswith(('--', '//', '#')):
            lines.append(quoted(line))
        elif FROM_KIT.match(line):
            lines.append(line)
        else:
            code, mark, comment = line.partition(marks)
            lines.append(WORD.sub(word, code) + mark + quoted(comment))
    return '\n'.join(lines)


def main():
    check = '--check' in sys.argv[1:]
    names, count, used = declared(), 0, set()
    for path in paths():
        used |= set(WORD.findall(read(path)))
    for name in sorted(names):
        if name.replace('-', '_') in used:
            print('falls together:', name)
    for path in paths():
        old = read(path)
        new = turned(path, old, names)
        if new != old:
            count += 1
            if not check:
                with open(path, 'w', encoding='utf-8') as file:
                    file.write(new)
    print('%d names, %d files' % (len(names), count))


if __name__ == '__main__':
    main()
