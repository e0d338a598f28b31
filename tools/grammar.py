#!/usr/bin/env python3
"""Prints docs/GRAMMAR.md: the grammar of crates/ecma262/specs/Derives.antt as BNF, made from the types of its constructors.

    tools/grammar.py > docs/GRAMMAR.md

Comments say only under which clause a production is printed; tests/grammar.py holds them to what is made here. It is an error if the parts
of a production do not touch, if a row does not span its production, or if a part's rows are lost, doubled or out of order.
"""
import os
import re
import sys
from collections import namedtuple

ROOT = os.path.join(os.path.dirname(os.path.abspath(__file__)), '..')
DERIVES = 'crates/ecma262/specs/Derives.antt'
KINDS = 'crates/tokens/specs/Kind.antt'
ROWS = 'crates/rows/specs/Row.antt'
CLAUSE = re.compile(r'\d+(?:\.\d+)+')
SAME_LINE = '[no LineTerminator here]'
LEAF = '\nleaf kind at = node kind at at (at + 1) nil\n'

HEAD = """\
# The grammar of expressions

This is the grammar of `{derives}` as BNF, made by `tools/grammar.py > docs/GRAMMAR.md` from the types there; a test holds this page and that file's comments to
the types (`tests/grammar.py`). The theorems are about that file, not about this page. The standard is ECMA-262, 16th edition, June 2025.
- Left out: functions but arrows, bodies in braces, classes, methods, private names, templates, `new`, `super`, `import`, `?.`, `await` and `yield`, the last two as names also.
  The rest is the standard's with [+In, ~Yield, ~Await], and in 15.9 with [+Await], which is the same where nothing is awaited.
- Lists and elisions are said once in that file and written out here. `Elision` may be empty, for *Elision opt*; Initializer is written `= AssignmentExpression`.
- For cover grammars their refined grammars stand here: AssignmentPattern, ArrowFormalParameters, AsyncArrowHead. A CoverInitializedName is derived; `Derived` asks that none be left.
- `SimpleTarget` stands where the standard has a LeftHandSideExpression or a UnaryExpression, and an early error unless its AssignmentTargetType is simple (8.6.4).
- Not in the standard: `Element`, of which two lists are made; `Binding`, a name or a pattern; `Commas`, an Expression with a comma. `AsyncArrowHead` is also `async` before a name.

The columns: the constructor; the symbols of the production, where `‹class›` is one token of a class; the row that stands for it, by number and name ({rows}); the
symbol at which its mark is, counted from 1 without the restrictions in brackets; and the symbols whose rows are its kids, where `30 BindingName(1)` is a row over symbol 1 alone.
A row's first and end are those of the production. A production with `-` makes no row of its own, and hands on the rows in the last column. `comma` is the place that goes with Commas.
"""

# what the page reads: the kinds' texts, the rows' numbers, the classes, the nonterminals and their abbreviations, what has two rows, the lines of operators, and the constructors
Source = namedtuple('Source', 'texts numbers classes nonterminals names links rows lines constructors')
# a constructor: the comment above it, the types of its variables, its parts before the arrows and what it makes
Constructor = namedtuple('Constructor', 'name comment variables parts result')
# one symbol of a production: what stands there (None for a restriction), how it is written, from which place to which, with which rows
Symbol = namedtuple('Symbol', 'kind text start end rows')
# a production: under which clause, of which constructor, the nonterminal, its symbols, and its rows
Production = namedtuple('Production', 'clause constructor left symbols rows')


# Something in the file is not as this script understands it, or is wrong.
def fail(text):
    sys.exit('tools/grammar.py: ' + text)


# The text of a file of the repository.
def read(path):
    with open(os.path.join(ROOT, path), encoding='utf-8') as file:
        return file.read()


# A term from its text: a word, or a tuple of terms; the signs + ∷ ++ stay where they stand.
def term(text):
    stack = [[]]
    for word in re.findall(r'[()]|[^\s()]+', text):
        if word == '(':
            stack.append([])
        elif word == ')':
            inner = stack.pop()
            stack[-1].append(inner[0] if len(inner) == 1 else tuple(inner))
        else:
            stack[-1].append(word)
    return stack[0][0] if len(stack[0]) == 1 else tuple(stack[0])


# A term with variables replaced.
def replace(what, values):
    if isinstance(what, tuple):
        return tuple(replace(each, values) for each in what)
    return values.get(what, what)


# The values of variables by which a pattern is a term, or None.
def match(pattern, what, variables):
    if pattern in variables:
        return {pattern: what}
    if isinstance(pattern, str) or isinstance(what, str):
        return {} if pattern == what else None
    found = {}
    for one, other in zip(pattern, what):
        values = match(one, other, variables)
        if values is None or len(pattern) != len(what) or any(found.get(name, value) != value for name, value in values.items()):
            return None
        found.update(values)
    return found


# A place as a variable and a number: `p` is (p, 0), `p + 1` is (p, 1).
def place(what):
    if isinstance(what, str):
        return (what, 0)
    if len(what) != 3 or what[1] != '+' or not what[2].isdigit():
        fail('%s is no place' % (what,))
    variable, number = place(what[0])
    return (variable, number + int(what[2]))


# The members of a list of kinds, which may be made of classes: kinds' names.
def members(what, classes):
    words = (what,) if isinstance(what, str) else what
    found = []
    for word in words:
        if word in classes:
            found += members(classes[word][1], classes)
        elif word not in ('∷', '++', '[]'):
            found.append(word)
    return found


# The constructors of a data type, each with the comment above it.
def constructors(text, name):
    body = text[text.index('pub data %s ' % name):].split('\n')[1:]
    found, comment, code = [], [], []
    for line in body + ['']:
        ends = line.strip().startswith('--') or not line.strip() or re.match(r'  \S+ : ', line)
        if ends and code:
            found.append(constructor(comment, ' '.join(code)))
            comment, code = [], []
        if not line.strip():
            return found
        if line.strip().startswith('--'):
            comment.append(line.strip()[2:].strip())
        else:
            code.append(line.strip())


# A constructor from its text.
def constructor(comment, text):
    name, kind = text.split(' : ', 1)
    variables = {}
    for names, of in re.findall(r'\{([^:}]+) : ([^}]+)\}', kind):
        variables.update({each: of for each in names.split()})
    parts = [term(part) for part in re.sub(r'\{[^}]*\}', '', kind).split('→') if part.strip()]
    return Constructor(name, comment, variables, parts[:-1], parts[-1])


# The abbreviations of a type, with the comment above or beside each.
def abbreviations(text, kind):
    found = {}
    form = r'((?:^-- .*\n)*)^abbrev pub (\S+) : %s(?:  -- (.*))?\n(\S+) =((?:.|\n)*?)\n(?=\n|$)' % kind
    for comment, name, beside, same, what in re.findall(form, text + '\n', re.M):
        if name != same:
            fail('%s is defined as %s' % (name, same))
        above = [line[2:].strip() for line in comment.splitlines()]
        found[name] = (above + [beside] if beside else above, term(what))
    return found


# Everything that the page is made of.
def source():
    text = read(DERIVES)
    texts = {name: comment[-1] for name, (comment, _) in abbreviations(read(KINDS), 'ℕ').items()}
    numbers = {name: int(number) for name, (_, number) in abbreviations(read(ROWS), 'ℕ').items()}
    rows = dict((name, (spread, plain)) for name, spread, plain in
                re.findall(r'^(\S+) kids = if ends_in_spread kids then Row\.(\w+) else Row\.(\w+)$', text, re.M))
    links = re.search(r'pub data Links : .*\n  (.*) : Links', text).group(1).split()
    declared = text[text.index('pub data Nonterminal '):].split('\n\n')[0]
    nonterminals = [name for names in re.findall(r'^  ([^-\n].*?) : ', declared, re.M) for name in names.split()]
    found = Source(texts, numbers, abbreviations(text, 'List ℕ'), nonterminals, abbreviations(text, 'Nonterminal'), links, rows,
                   constructors(text, 'LeftToRight'), constructors(text, 'Derives'))
    if LEAF not in text:
        fail('a leaf is not a row over one token')
    meanings = [what for _, what in found.names.values()]
    if len(set(meanings)) != len(meanings):
        fail('two nonterminals are abbreviations of one')
    return found


# How a kind of token is written: its text, or in parentheses what it is.
def spelled(kind, src):
    if kind not in src.texts:
        fail('%s is no kind of token' % kind)
    return '(%s)' % src.texts[kind] if re.match(r'(a|another) ', src.texts[kind]) else src.texts[kind]


# A nonterminal written out: no abbreviation is left in it.
def whole(what, src):
    if isinstance(what, tuple):
        return tuple(whole(each, src) for each in what)
    return src.names[what][1] if what in src.names else what


# The name of a nonterminal that is written out. A place that goes with it is put in parentheses.
def named(what, src):
    for name, (_, meaning) in src.names.items():
        if meaning == what:
            return name
    if isinstance(what, str):
        return what
    if what[0] in ('ListOf', 'Elided', 'LinkedExpression', 'TierExpression'):
        fail('%s has no name' % (what,))
    return '%s(%s)' % what


# What is at hand for the variables of a constructor that stand for more than one thing: each of the links, each line of `LeftToRight`, each list.
def choices(con, src):
    found = [({}, con.parts, None)]
    for name, kind in con.variables.items():
        if kind == 'Links':
            found = [({name: link}, con.parts, None) for link in src.links]
        elif kind == 'Nonterminal':
            lists = [(comment, what) for comment, what in src.names.values() if match(con.result[2], what, [name])]
            found = [(match(con.result[2], what, [name]), con.parts, clause_of(comment)) for comment, what in lists]
    for number, part in enumerate(con.parts):
        if part[0] == 'LeftToRight':
            found, clause = [], None
            for line in src.lines:
                values = match(part, whole(line.result, src), con.variables)
                if values is None:
                    fail('no production is made of the line %s' % line.name)
                clause = clause_of(line.comment) or clause
                found.append((values, con.parts[:number] + con.parts[number + 1:], clause))
    return found


# The clause with which a comment starts, or None.
def clause_of(comment):
    for line in comment:
        found = CLAUSE.match(line)
        if found:
            return found.group(0)
    return None


# The parts of an `Elided x`, which is written as its one production wherever it stands: its symbols, and its rows.
def elided(what, start, end, rows, src):
    matching = [con for con in src.constructors if con.result[2][0] == what[0]]
    if len(matching) != 1:
        fail('%s has not one production' % what[0])
    con = matching[0]
    values = match(con.result[2], what, con.variables)
    for name, kind in con.variables.items():
        if name not in values:
            values[name] = '%s.%s' % (rows, name)
    values.update({con.result[3]: start, con.result[4]: end})
    found = [symbols(replace(part, values), src) for part in con.parts]
    return [each for some, _ in found for each in some], {rows: replace(con.result[5], values)}


# The symbols of a part of a production, and what its rows are if it was written out.
def symbols(part, src):
    if part[0] == 'Derives':
        what = whole(part[2], src)
        if what[0] == 'Elided':
            return elided(what, part[3], part[4], part[5], src)
        return [Symbol('nonterminal', named(what, src), place(part[3]), place(part[4]), part[5])], {}
    if part[0] == 'Tok':
        at = place(part[2])
        return [Symbol('token', spelled(part[3], src), at, (at[0], at[1] + 1), None)], {}
    if part[0] == 'OneOf':
        at = place(part[3])
        return [Symbol('class', part[1], at, (at[0], at[1] + 1), None)], {}
    if part[0] == 'SameLine':
        return [Symbol(None, SAME_LINE, place(part[2]), None, None)], {}
    if part[0] == 'Not':
        return [Symbol(None, '[lookahead ≠ %s]' % spelled(part[3], src), place(part[2]), None, None)], {}
    fail('a part of a production that is none: %s' % (part,))


# The symbols in their order: each begins where the one before it ends, from the production's start to its end; a restriction stands before the symbol at its place.
def in_order(name, found, start, end):
    real = [each for each in found if each.kind]
    at = start
    for each in real:
        if each.start != at:
            fail('%s: %s does not begin where the part before it ends' % (name, each.text))
        at = each.end
    if at != end:
        fail('%s: the parts do not end where the production does' % name)
    restrictions = [each for each in found if not each.kind]
    if any(each.start not in [symbol.start for symbol in real] for each in restrictions):
        fail('%s: a restriction is on no part' % name)
    return [each for symbol in real for each in [one for one in restrictions if one.start == symbol.start] + [symbol]]


# The productions of a constructor.
def productions(con, clause, src):
    found = []
    for values, parts, own in choices(con, src):
        made, rows = [], {}
        for part in parts:
            more, inner = symbols(replace(part, values), src)
            made += more
            rows.update(inner)
        result = replace(con.result, values)
        made = in_order(con.name, made, place(result[3]), place(result[4]))
        made = [operators(each, src) for each in made]
        production = Production(own or clause, con.name, named(whole(result[2], src), src), made, replace(result[5], rows))
        check_rows(production, place(result[3]), place(result[4]))
        found += each_operator(production, src)
    return found


# A symbol whose class is written as a list of kinds is one of these.
def operators(symbol, src):
    if symbol.kind == 'class' and symbol.text not in src.classes:
        return symbol._replace(kind='operators', text=members(symbol.text, src.classes))
    return symbol


# A production for each operator of a line of `LeftToRight`.
def each_operator(production, src):
    lists = [each for each in production.symbols if each.kind == 'operators']
    if not lists:
        return [production]
    return [production._replace(symbols=[each._replace(kind='token', text=spelled(kind, src)) if each in lists else each for each in production.symbols])
            for kind in lists[0].text]


# The rows of a forest from left to right: rows that a part has, by their variable, and rows that are made, as terms.
def flat(rows):
    if rows == 'nil':
        return []
    if isinstance(rows, tuple) and rows[0] == 'join':
        return flat(rows[1]) + flat(rows[2])
    if isinstance(rows, tuple) and rows[0] == 'one':
        return [rows[1]]
    if isinstance(rows, tuple) and rows[0] == 'cons':
        return [rows[1]] + flat(rows[2])
    return [rows]


# The row that a production makes: kind, mark, first, end, kids. None if it makes none.
def row_of(rows):
    made = flat(rows)
    if len(made) != 1 or isinstance(made[0], str):
        return None
    if made[0][0] == 'leaf':
        at = place(made[0][2])
        return made[0][1], at, at, (at[0], at[1] + 1), 'nil'
    return made[0][1], place(made[0][2]), place(made[0][3]), place(made[0][4]), made[0][5]


# A row that a production makes spans it; every part's rows stand once, in order; and a kind that depends on the kids depends on all of them.
def check_rows(production, start, end):
    row = row_of(production.rows)
    spans = row and row[2:4] == (start, end)
    if row and not spans and flat(production.rows)[0][0] != 'leaf':
        fail('%s: the row does not span the production' % production.constructor)
    kids = flat(row[4]) if spans else flat(production.rows)
    if [each for each in kids if isinstance(each, str)] != [each.rows for each in production.symbols if each.rows]:
        fail('%s: not the rows of all its parts in their order' % production.constructor)
    numbers = [number_of(each, production) for each in kids]
    if numbers != sorted(set(numbers)):
        fail('%s: rows are out of order' % production.constructor)
    if spans and isinstance(row[0], tuple) and flat(row[0][1]) != kids:
        fail('%s: the kind of row is not by its kids' % production.constructor)


# The number of the symbol that a kid is: the part whose rows it is, or the token that it is a leaf over.
def number_of(kid, production):
    for number, symbol in enumerate([each for each in production.symbols if each.kind], 1):
        if isinstance(kid, str) and symbol.rows == kid:
            return number
        if kid[0] == 'leaf' and symbol.rows is None and place(kid[2]) == symbol.start:
            return number
    fail('%s: %s is no part' % (production.constructor, kid))


# The grammar: every production, in the order of the file, lists where they are first used.
def grammar(src):
    found, clause, lists = [], None, {}
    for con in src.constructors:
        clause = clause_of(con.comment) or clause
        if con.result[2][0] == 'ListOf':
            for each in productions(con, clause, src):
                lists.setdefault(each.left, []).append(each)
        elif con.result[2][0] != 'Elided':
            for production in productions(con, clause, src):
                found.append(production)
                for symbol in production.symbols:
                    if symbol.kind == 'nonterminal':
                        found += lists.pop(symbol.text, [])
    if lists:
        fail('lists of which no production is made: %s' % ' '.join(lists))
    lefts = {each.left for each in found}
    made = {con.result[2] if isinstance(con.result[2], str) else con.result[2][0] for con in src.constructors} - set(src.names)
    made |= {what[0] for name, (_, what) in src.names.items() if name in lefts}
    if made != set(src.nonterminals):
        fail('nonterminals that are declared, or have productions, and not both: %s' % ' '.join(sorted(made ^ set(src.nonterminals))))
    for each in found:
        for symbol in each.symbols:
            if symbol.kind == 'nonterminal' and symbol.text not in lefts:
                fail('%s has no production' % symbol.text)
    return found


# How a kind of row is written: its number and name.
def row_named(kind, src):
    if isinstance(kind, tuple):
        return kind[0]
    return '%2d %s' % (src.numbers[kind[4:]], kind[4:])


# A kid of a row, as the page writes it: its number; a row that is made has its kind before it.
def kid_written(kid, production, src):
    number = number_of(kid, production)
    return '%d' % number if isinstance(kid, str) else '%s(%d)' % (row_named(kid[1], src).strip(), number)


# The place of a mark: the number of a symbol, or the place that goes with the first symbol.
def mark_written(mark, production):
    for number, symbol in enumerate([each for each in production.symbols if each.kind], 1):
        if symbol.start == mark:
            return str(number)
    if mark[1] == 0 and production.symbols[0].text.endswith('(%s)' % mark[0]):
        return mark[0]
    fail('%s: the mark is at no part' % production.constructor)


# A production without its nonterminal, as the page writes it.
def right(production):
    return ' '.join('‹%s›' % each.text if each.kind == 'class' else each.text for each in production.symbols) or '[empty]'


# The columns of a production: its constructor, its symbols, the row, the mark, the kids.
def columns(production, src):
    row = row_of(production.rows)
    spans = row and production.symbols and row[2] == production.symbols[0].start and row[3] == production.symbols[-1].end
    kids = flat(row[4]) if spans else flat(production.rows)
    written = ', '.join(kid_written(each, production, src) for each in kids) or 'none'
    if not spans:
        goes_with = re.search(r'\((\w+)\)', production.left)
        return production.constructor, right(production), ' -', mark_written((goes_with.group(1), 0), production) if goes_with else '', written
    return production.constructor, right(production), row_named(row[0], src), mark_written(row[1], production), written


# The productions under one clause: nonterminals in the order in which they come.
def clause_written(found, src):
    lefts = list(dict.fromkeys(each.left for each in found))
    layout = '  %-26s%-69s%-25s%-6s%s'
    lines = [layout % ('constructor', 'symbols', 'row', 'mark', 'kids')]
    for left in lefts:
        lines += ['', left + ' :']
        lines += [(layout % columns(each, src)).rstrip() for each in found if each.left == left]
    return ['```text'] + lines + ['```']


# The classes of tokens, each with its members.
def classes_written(src):
    lines = ['## Classes of tokens', '', '```text']
    for name, (_, what) in src.classes.items():
        words = [word for word in what if word not in ('∷', '++', '[]')]
        texts = ['‹%s›' % word if word in src.classes else spelled(word, src) for word in words]
        line = '%-26s' % ('‹%s›' % name)
        for text in texts:
            if len(line) + len(text) > 140:
                lines.append(line.rstrip())
                line = ' ' * 26
            line += text + '  '
        lines.append(line.rstrip())
    return lines + ['```']


# What has one of two rows.
def rows_written(src):
    return ['`%s` is %s if the last kid is a Spread, else %s.' % (name, row_named('Row.' + spread, src).strip(), row_named('Row.' + plain, src).strip())
            for name, (spread, plain) in src.rows.items()]


# The page.
def page(src):
    found = grammar(src)
    lines = [HEAD.format(derives=DERIVES, rows='`%s`' % ROWS).rstrip()] + rows_written(src) + [''] + classes_written(src)
    for clause in dict.fromkeys(each.clause for each in found):
        lines += ['', '## ' + clause, ''] + clause_written([each for each in found if each.clause == clause], src)
    return '\n'.join(lines) + '\n'


if __name__ == '__main__':
    sys.stdout.write(page(source()))
