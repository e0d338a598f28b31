#!/usr/bin/env python3
"""Wrong grammars: with each edit of crates/ecma262/wrong the theorems of `exact` must not be proved any more.

    tests/wrong.py [NAME..]    these edits, or all

A must-fail edit of the toolchain checks its own crate alone; what refuses these edits of a definition are theorems of another crate. They are tried in copies of
the two crates and of what these stand on. First both must be proved as they are; then, with each edit alone, `ecma262` must still be proved, and the check of
`exact` must come to a lemma of its own that does not hold. A check begins with what the check before it kept, and so does the first one where there is such work.
"""
import glob
import os
import re
import shutil
import subprocess
import sys
import tempfile
from concurrent.futures import ThreadPoolExecutor
from queue import Queue

ROOT = os.path.realpath(os.path.join(os.path.dirname(os.path.abspath(__file__)), '..'))
EDITED = 'ecma262'
REFUSING = 'exact'
# What a check says last of its crate; where a lemma of the crate does not hold; and what is no refusal: text that cannot be read, or has no meaning.
VERDICT = re.compile(r'^logic=(\S+)', re.M)
REFUSAL = re.compile(r'^\./(proofs/\S+\.antt):\d+:\d+: error: (.*)', re.M)
UNREAD = re.compile(r'has no field|is not in scope|has no `|is no name|was not admitted|operand is missing|expected the end|cannot continue')


def changes(path):
    """The replacements of an edit: (file, old, new). A line `file:` holds for the pairs after it."""
    with open(path, encoding='utf-8') as file:
        lines = file.read().split('\n')
    name, old, found = None, None, []
    for line in lines:
        word, _, rest = line.partition(': ')
        if word == 'file':
            name = rest
        elif word == 'old':
            old = rest
        elif word == 'new':
            found.append((name, old, rest))
    return found


def apply(path, crate):
    """Applies an edit to a copy of its crate. Each old text must stand in its file once."""
    for name, old, new in changes(path):
        with open(os.path.join(crate, name), encoding='utf-8') as file:
            text = file.read()
        if text.count(old) != 1:
            sys.exit('%s: an old text stands in %s %d times' % (path, name, text.count(old)))
        with open(os.path.join(crate, name), 'w', encoding='utf-8') as file:
            file.write(text.replace(old, new))


def crates_below(name, lines):
    """A crate and all that it stands on."""
    return {name}.union(*(crates_below(below, lines) for below in lines[name].split() if below in lines))


def make_room(room, source):
    """A repository of the two crates and what they stand on, with what checks in the source kept."""
    with open(os.path.join(ROOT, 'crates.txt'), encoding='utf-8') as file:
        lines = dict(line.split(':', 1) for line in file.read().split('\n') if ':' in line and not line.startswith('#'))
    names = crates_below(REFUSING, lines) | crates_below(EDITED, lines)
    with open(os.path.join(room, 'crates.txt'), 'w', encoding='utf-8') as file:
        file.write(''.join('%s:%s\n' % (name, lines[name]) for name in sorted(names)))
    for name in names:
        shutil.copytree(os.path.join(source, 'crates', name), os.path.join(room, 'crates', name), symlinks=True)


def run(room, crate, *words):
    """Runs the toolchain in a crate of a room: its status, and what it said."""
    done = subprocess.run(['rt', *words, '--jobs', '1'], cwd=os.path.join(room, 'crates', crate), stdin=subprocess.DEVNULL,
                          stdout=subprocess.PIPE, stderr=subprocess.STDOUT, encoding='utf-8', errors='replace')
    return done.returncode, done.stdout


def verdict(status, said):
    """What the last check said: proved, not-proved, or that there was none."""
    found = VERDICT.findall(said)
    return 'no verdict' if not found or status not in (0, 1) or (status == 0) != (found[-1] == 'proved') else found[-1]


def checked(room):
    """What is said of the two crates in a room, and the first lemma that does not hold."""
    status, said = run(room, EDITED, 'lib')
    if status:
        print(said)
        return 'not built, as only a proved crate is', 'not checked', ''
    status, said = run(room, REFUSING, 'check')
    refusals = [(file, why) for file, why in REFUSAL.findall(said) if not UNREAD.search(why)]
    found = verdict(status, said)
    if found == 'not-proved' and not refusals:
        print(said)
        return 'proved', 'not-proved, and by no lemma that does not hold', ''
    return 'proved', found, ', by ' + refusals[0][0] if found == 'not-proved' else ''


def is_right(name, found, wanted):
    """Says what was found of an edit, and whether it is what is wanted."""
    print('%s: %s, %s%s%s' % (name, *found, '' if found[:2] == wanted else ', WHICH IT MUST NOT BE'), flush=True)
    return found[:2] == wanted


def is_refused(path, rooms):
    """Whether the edited grammar is one, and the theorems do not hold of it."""
    room = rooms.get()
    crate = os.path.join(room, 'crates', EDITED)
    apply(path, crate)
    found = checked(room)
    for name in {name for name, _, _ in changes(path)}:
        shutil.copy(os.path.join(ROOT, 'crates', EDITED, name), os.path.join(crate, name))
    rooms.put(room)
    return is_right(os.path.basename(path)[:-5], found, ('proved', 'not-proved'))


def main(names):
    edits = [path for path in sorted(glob.glob(os.path.join(ROOT, 'crates', EDITED, 'wrong/*.edit'))) if not names or os.path.basename(path)[:-5] in names]
    with tempfile.TemporaryDirectory() as folder:
        first = os.path.join(folder, '0')
        os.makedirs(first)
        make_room(first, ROOT)
        results = [is_right('no edit', checked(first), ('proved', 'proved'))]
        if results[0]:
            rooms = Queue()
            rooms.put(first)
            for number in range(1, min(len(os.sched_getaffinity(0)), len(edits))):
                room = os.path.join(folder, str(number))
                os.makedirs(room)
                make_room(room, first)
                rooms.put(room)
            with ThreadPoolExecutor(rooms.qsize()) as pool:
                results += pool.map(lambda path: is_refused(path, rooms), edits)
    if not edits or not all(results):
        print('0 passed, %d failed' % max(1, results.count(False)))
        sys.exit(1)
    print('tests/wrong.py: %d wrong grammars, each refused' % len(edits))


if __name__ == '__main__':
    main(sys.argv[1:])
