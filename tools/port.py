#!/usr/bin/env python3
"""Holds docs/MAP.md to the sources.

    tools/port.py    fails if one of these does not hold

Every function that the page cites, `parse/src/lib.rt comma assign`, is in that file; every function of a file that stands under "The port" is named there.
A comment above a function may say "Follows `x` and a part of `y`." or "Stands for `x`.", where x and y are functions of the crate: each of them has a row
in the tables, and that row names the function. Where one function of a file says so, all of that file's do to which the tables give a row.
The crate's own files are not in the repository, so its names and lines are held to nothing.
"""
import glob
import os
import re
import sys

ROOT = os.path.join(os.path.dirname(os.path.abspath(__file__)), '..')
PAGE, PORT = 'docs/MAP.md', '## The port\n'
CITED = re.compile(r'`(\w+/src/\w+\.rt)((?: \w+)*)`')
ROW = re.compile(r'^\| `([\w:]+)` \| [\w./]+:\d+ \|(.*)\|$', re.M)
ITEM = re.compile(r'((?:^ *//.*\n)*)(?:^ *#\[.*\n)*^ *(?:pub )?(?:extern "C" )?(fn|const|enum|struct) (\w+)', re.M)
SAID = re.compile(r'(?:Follows|Stands for) ([^.]*)\.')


# The text of a file of the repository.
def read(path):
    with open(os.path.join(ROOT, path), encoding='utf-8') as file:
        return file.read()


# What a text cites, as pairs of a file and a name.
def cited(text):
    return [(path, name) for path, names in CITED.findall(text) for name in names.split()]


# The sources: each file with its items, of each its sort and the comment above it.
def sources():
    found = {}
    for path in sorted(glob.glob(os.path.join(ROOT, 'crates/*/src/*.rt'))):
        file = os.path.relpath(path, os.path.join(ROOT, 'crates'))
        found[file] = {name: (sort, comment) for comment, sort, name in ITEM.findall(read(os.path.join('crates', file)))}
    return found


# What the comments say, as triples of a file, a name and a function of the crate.
def said_in(items):
    return {(file, name, rust) for file, named in items.items() for name, (_, comment) in named.items()
            for words in SAID.findall(comment.replace('\n//', '')) for rust in re.findall(r'`([\w:]+)`', words)}


# What the tables say, likewise.
def told_in(page):
    return {(file, name, rust) for rust, rest in ROW.findall(page) for file, name in cited(rest)}


# What the page cites and the sources do not have, with the files that have it.
def absent(page, items):
    for file in sorted({file for file, _ in CITED.findall(page)} - set(items)):
        yield '%s: there is no %s' % (PAGE, file)
    for file, name in cited(page):
        if name not in items.get(file, {}):
            others = [other for other in items if name in items[other]]
            yield '%s: %s has no %s%s' % (PAGE, file, name, '; it is in ' + ', '.join(others) if others else '')


# The functions of files that the port cites and that it does not name.
def unnamed(port, items):
    named = set(cited(port))
    for file in sorted({file for file, _ in named if file in items}):
        for name, (sort, _) in items[file].items():
            if sort == 'fn' and (file, name) not in named:
                yield '%s: "The port" does not name %s of %s' % (PAGE, name, file)


# Where comments and tables say other things. A file without such comments is not asked for them.
def unlike(said, told):
    asked = {file for file, _, _ in said}
    for file, name, rust in sorted(said - told):
        yield '%s: the comment of %s names %s, and no row of %s does' % (file, name, rust, PAGE)
    for file, name, rust in sorted(each for each in told - said if each[0] in asked):
        yield '%s: the comment of %s does not name %s, as %s does' % (file, name, rust, PAGE)


# Prints what does not hold, or how much does.
def main():
    page, items = read(PAGE), sources()
    port = page[page.index(PORT):]
    said, told = said_in(items), told_in(port)
    wrong = [*absent(page, items), *unnamed(port, items), *unlike(said, told)]
    if wrong:
        sys.exit('\n'.join(wrong + ['tools/port.py: %d do not hold' % len(wrong)]))
    print('tools/port.py: %d functions that %s cites are there; %d rows, of which comments say %d' % (len(set(cited(page))), PAGE, len(told), len(said)))


main()
