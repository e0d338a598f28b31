"""Does the comparison see a fault? Each edit is put alone into a copy below target/, and the short runs must show a difference (with windows of 5 for the worker).

    python3 -B tools/crate/sensitivity.py twin      faults in a copy of readers/twin, which is asked instead of the archive
    python3 -B tools/crate/sensitivity.py files     edits of a copy of the crate's five files (the text of 0.156.0, by lines), the archive is asked

OXC_SOURCE names the folder of the five files, as for tools/crate/run.sh. Prints a table; fails if a fault is not seen, or if without one something differs.
"""
import os
import re
import shutil
import subprocess
import sys

ROOT = os.path.dirname(os.path.dirname(os.path.dirname(os.path.abspath(__file__))))
WORK = os.path.join(ROOT, 'target', 'sensitivity')
SOURCE = os.environ.get('OXC_SOURCE', os.path.join(ROOT, '..', 'shared', 'docs', 'src', 'src', 'js'))
FILES = ['arrow.rs', 'grammar.rs', 'operator.rs', 'binding.rs', 'object.rs']
COPIED = ['readers', 'tools/crate']
PRINTED = 'crates/operators_test/stdout'

# What is wrong, the file of readers/twin/src, the text that stands there once, and what is put in its place.
TWIN = [
    ('Maybe for True', 'arrow.rs', 'kind::IDENT => True', 'kind::IDENT => Maybe'),
    ('a rest accepted before others', 'parse.rs', 'if self.kind() != close {', 'if self.kind() != close && self.kind() != kind::COMMA {'),
    ('record 4 lost', 'target.rs', 'matches!(kind, ARRAY_REST_COMMA | OBJECT_REST_COMMA)', 'kind == 0'),
    ('a level off', 'operator.rs', 'kind::STAR..=kind::PERCENT => 11', 'kind::STAR..=kind::PERCENT => 10'),
    ('refused by a check', 'lib.rs', 'const MAX_OPEN: usize = 64;', 'const MAX_OPEN: usize = 1;'),
    ('sizes of parents', 'parse.rs', 'kids, size as u32]', 'kids, size as u32 + 1]'),
    ("a shorthand's default dropped", 'target.rs', 'rows[kid][KIND] = TARGET_SHORTHAND_INIT;', 'rows[kid][KIND] = TARGET_SHORTHAND;'),
]

# What is wrong, the file, its line, the words that stand in that line once, and what is put in their place. No words: the line is left out.
CRATE = [
    ('the level of **', 'operator.rs', 36, 'Exponentiation', 'Multiply'),
    ('the operator of >>=', 'operator.rs', 119, 'ShiftRight,', 'ShiftRightZeroFill,'),
    ('async() before a colon', 'arrow.rs', 105, '', ''),
    ('([ and ({ are no heads', 'arrow.rs', 119, 'Maybe', 'False'),
    ('(...name', 'arrow.rs', 127, 'True', 'Maybe'),
    ('(...literal', 'arrow.rs', 129, 'False', 'Maybe'),
    ('(async name', 'arrow.rs', 141, '', ''),
    ('(static as', 'arrow.rs', 144, 'Kind::As', 'Kind::Eof'),
    ('(name?=', 'arrow.rs', 167, 'Kind::Eq', 'Kind::Comma'),
    ('<const', 'arrow.rs', 192, '', ''),
    ('<name extends /', 'arrow.rs', 199, 'Kind::Slash', 'Kind::Eq'),
    ('a break after async', 'arrow.rs', 223, 'is_on_new_line()', 'kind().is_number()'),
    ("record 1 of a name's arrow", 'arrow.rs', 251, '', ''),
    ("record 1 of a head's arrow", 'arrow.rs', 296, '', ''),
    ('a head that failed is not noted', 'arrow.rs', 368, '', ''),
    ('([a]) = b', 'grammar.rs', 42, 'ArrayExpression', 'ThisExpression'),
    ('a spread before others in an array', 'grammar.rs', 112, 'len - 1', 'i'),
    ("a pattern as an array's rest", 'grammar.rs', 118, 'ArrayExpression', 'ThisExpression'),
    ("record 4 of an array's rest", 'grammar.rs', 129, '', ''),
    ('holes of a target', 'grammar.rs', 136, 'elements.push', 'drop::<Option<()>>'),
    ('record 5', 'grammar.rs', 148, '!=', '=='),
    ("record 3 of an object's rest", 'grammar.rs', 198, '', ''),
    ("a shorthand's default", 'grammar.rs', 227, 'e.right', 'Expression::dummy()'),
    ("an object binding's rest", 'binding.rs', 51, 'BindingIdentifier', 'ObjectPattern'),
    ('holes of a binding', 'binding.rs', 78, 'Kind::Comma', 'Kind::Eof'),
    ("record 2 of a pattern's rest", 'binding.rs', 112, '', ''),
    ("record 2 of a head's rest", 'binding.rs', 141, '', ''),
    ('any word as a binding', 'binding.rs', 158, 'is_binding_identifier', 'true'),
    ("a comma after an object's spread", 'object.rs', 37, '', ''),
    ('any word as a shorthand', 'object.rs', 103, 'token_is_identifier', 'true'),
    ('record 8', 'object.rs', 123, '', ''),
    ('numbers as keys', 'object.rs', 158, '', ''),
    ('a sequence in a computed key', 'object.rs', 184, 'parse_assignment_expression_or_higher', 'parse_expr'),
]


def edited(text, line, old, new):
    """The text with one edit; the old words must stand there once."""
    lines = text.split('\n') if line else [text]
    at = line - 1 if line else 0
    if old and lines[at].count(old) != 1:
        sys.exit('%r does not stand once at line %s' % (old, line))
    lines[at] = lines[at].replace(old, new) if old else ''
    return '\n'.join(lines)


def compared(root, source, reader, target):
    """The short runs of a copy: the runs that saw something, how many differences, and the shortest sample with its class."""
    environment = dict(os.environ, OXC_SOURCE=source, READER=reader, CRATE_TARGET=os.path.join(WORK, target))
    done = subprocess.run(['bash', os.path.join(root, 'tools/crate/run.sh'), 'short', 'three:looked:5'], env=environment, capture_output=True, text=True)
    if 'could not compile' in done.stderr or done.returncode == 3:
        sys.exit(done.stdout + done.stderr)
    rows = [row.split() for row in re.findall(r'^[a-z]+[a-z0-9:]* +[0-9,]+ .*', done.stdout, re.M)]
    seen = [row[0] for row in rows if row[4] != '0' and row[0] != 'all']
    total = next((row[4] for row in rows if row[0] == 'all'), 'stops')
    classes = re.findall(r'^  DIFFERENCE(?: beyond the comparison)?: (.*?): [0-9,]+; smallest: (.*)', done.stdout, re.M)
    sheets = [(name, re.split(r' \| |, row | at \d+, TypeScript |: \S+ here', sample)[0].replace('|', '\\|')) for name, sample in classes]
    return seen, total, '%s: `%s`' % min(sheets, key=lambda one: len(one[1])) if sheets else ''


def show(what, seen, total, sample):
    """A line of the table."""
    parts = sorted({name.split(':')[0] for name in seen})
    print('| %s | %s | %s | %s |' % (what, total, ', '.join(parts) or 'nothing', sample), flush=True)


def faults_in_twin():
    """The copy of what a comparison with the twin needs, and where each fault is put."""
    copy = os.path.join(WORK, 'copy')
    shutil.rmtree(copy, ignore_errors=True)
    for folder in COPIED:
        # With new times, so that what was built of an older copy is built again.
        shutil.copytree(os.path.join(ROOT, folder), os.path.join(copy, folder), copy_function=shutil.copyfile, ignore=shutil.ignore_patterns('target'))
    # Of the crates one file alone: the toolchain's gate refuses code of a crate that stands anywhere else.
    os.makedirs(os.path.join(copy, os.path.dirname(PRINTED)))
    shutil.copyfile(os.path.join(ROOT, PRINTED), os.path.join(copy, PRINTED))
    for what, name, old, new in [('no fault', 'lib.rs', '', '')] + TWIN:
        path = os.path.join(copy, 'readers/twin/src', name)
        text = open(path).read()
        if old:
            open(path, 'w').write(edited(text, 0, old, new))
        yield (what, *compared(copy, SOURCE, 'twin', 'twin'))
        open(path, 'w').write(text)


def faults_in_files():
    """The copy of the five files, and each edit."""
    copy = os.path.join(WORK, 'js')
    os.makedirs(copy, exist_ok=True)
    for name in FILES:
        shutil.copyfile(os.path.join(SOURCE, name), os.path.join(copy, name))
    for what, name, line, old, new in [('no edit', 'arrow.rs', 0, '', '')] + CRATE:
        path = os.path.join(copy, name)
        text = open(path).read()
        if line:
            open(path, 'w').write(edited(text, line, old, new))
        yield (what, *compared(ROOT, copy, 'archive', 'files'))
        open(path, 'w').write(text)


def main():
    if sys.argv[1:] not in (['twin'], ['files']):
        sys.exit(__doc__)
    if not all(os.path.isfile(os.path.join(SOURCE, name)) for name in FILES):
        sys.exit('the five files are not in %s (OXC_SOURCE names their folder)' % SOURCE)
    print('| fault | differences | seen by | the shortest sample |\n|---|---|---|---|', flush=True)
    missed = []
    for at, (what, seen, total, sample) in enumerate(faults_in_twin() if sys.argv[1] == 'twin' else faults_in_files()):
        show(what, seen, total, sample)
        if (total == '0') != (at == 0):
            missed.append(what)
    print('not as expected: ' + ', '.join(missed) if missed else 'each fault is seen, and without one nothing differs')
    sys.exit(1 if missed else 0)


main()
