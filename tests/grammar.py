#!/usr/bin/env python3
"""Holds docs/GRAMMAR.md and the comments of crates/ecma262/specs/Derives.antt to the types of that file.

The page is what tools/grammar.py prints. The comment above each constructor, each list, each line of operators and each class of tokens says, in
the standard's words, exactly the productions or the members that the types have.
"""
import itertools
import os
import re
import sys

ROOT = os.path.join(os.path.dirname(os.path.abspath(__file__)), '..')
sys.path.insert(0, os.path.join(ROOT, 'tools'))
import grammar  # noqa: E402

# Where the types do not have the symbol that the standard prints. A remark after a comma says which other nonterminal stands for the printed one.
REMARKS = {
    # 13.4.1, 13.15.1, 13.15.5.1: an early error unless its AssignmentTargetType (8.6.4) is simple
    'of a simple target': {'LeftHandSideExpression': 'SimpleTarget'},
    # 13.4.1: likewise
    'which is a simple target': {'UnaryExpression': 'SimpleTarget'},
    # 13.15.1: or it is an ObjectLiteral or ArrayLiteral, and covers an AssignmentPattern
    'of a simple target or an AssignmentPattern': {'LeftHandSideExpression': 'DestructuringAssignmentTarget'},
    # 13.15.5.1: an early error for the rest of an object
    'which is no ArrayLiteral or ObjectLiteral': {'DestructuringAssignmentTarget': 'SimpleTarget'},
}
# 15.9: without await it is the same as ConciseBody
SAME = {'AsyncConciseBody': 'ConciseBody'}
# Nonterminals that are written out by their own productions before the two sides are compared: Element and Binding are not in the standard, and the
# standard prints SpreadElement's `... AssignmentExpression` in ArgumentList and PropertyDefinition.
WRITTEN_OUT = ('Element', 'Binding', 'SpreadElement')
# What the standard has a name for, and the types have as kinds of tokens and classes of them.
TOKENS = {'NullLiteral': 'Null', 'BooleanLiteral': 'True False', 'NumericLiteral': 'Number', 'StringLiteral': 'Str', 'RegularExpressionLiteral': 'RegExp',
          'Identifier': 'identifiers', 'IdentifierReference': 'identifiers', 'BindingIdentifier': 'identifiers', 'IdentifierName': 'identifier_names',
          'ReservedWord': 'reserved_words', 'and those that no production here names': 'Reserved'}
INITIALIZER = ('=', 'AssignmentExpression')
RESTRICTION = re.compile(r'\[(no LineTerminator here|lookahead ≠ .|empty)\]')
RULE = re.compile(r'(?:[\d.]+ )?([A-Z]\w*) : (.*)')

src = grammar.source()
found = grammar.grammar(src)
wrong = []


# The name of a nonterminal without the place that goes with it.
def bare(name):
    return name.split('(')[0]


NONTERMINALS = {bare(each.left) for each in found}


# The rules of a comment: pairs of a left side and its text. A line that starts no rule and goes on with none is no part of it.
def rules(comment):
    texts = []
    for line in comment:
        if RULE.fullmatch(line):
            texts.append(line)
        elif line.startswith('| ') and texts:
            texts[-1] += ' ' + line
    return [RULE.fullmatch(part).groups() if RULE.fullmatch(part) else (None, part) for text in texts for part in text.split('; ')]


# The text of a rule, and the remark after it without the clause that it cites.
def remarked(text):
    text, remark = (re.split(r'(?<=\S), ', text, maxsplit=1) + [''])[:2]
    return text, re.sub(r' \([\d.]+\)$', '', remark)


# The alternatives that the text of a rule lists, as tuples of symbols; those in which an optional Elision is left out, too.
def alternatives(text):
    text, remark = remarked(text)
    words = RESTRICTION.sub(lambda restriction: restriction.group(0).replace(' ', '_'), text).split()
    if words[:2] == ['one', 'of']:
        return {(word,) for word in words[2:]}
    listed = [list(some) for bar, some in itertools.groupby(words, lambda word: word == '|') if not bar]
    written = set()
    for some in listed:
        parts = []
        for word, after in zip(some, some[1:] + ['']):
            if word != 'opt':
                parts.append(choices(word.strip('`').replace('_', ' '), after == 'opt', REMARKS.get(remark, {})))
        written |= {tuple(itertools.chain(*each)) for each in itertools.product(*parts)}
    return written


# What a printed symbol is in the types.
def choices(word, optional, replaced):
    word = SAME.get(word, replaced.get(word, word))
    if word in TOKENS:
        return [(grammar.spelled(kind, src),) for kind in kinds([word])]
    symbols = INITIALIZER if word == 'Initializer' else () if word == '[empty]' else (word,)
    return [(), symbols] if optional else [symbols]


# Alternatives with symbols written out by their rules.
def written_out(some, meaning):
    result = set()
    for each in some:
        parts = [meaning[word] if word in meaning else {(word,)} for word in each]
        result |= {tuple(itertools.chain(*one)) for one in itertools.product(*parts)}
    return result if result == some else written_out(result, meaning)


# The rules of all comments for nonterminals that are not in the types, and the nonterminal of the types that each is an alternative of.
def printed_only(comments):
    meaning, parent = {}, {}
    for comment in comments:
        for left, text in rules(comment):
            if left and left not in NONTERMINALS and left not in TOKENS:
                meaning.setdefault(left, set()).update(alternatives(text))
            elif left in NONTERMINALS:
                parent.update({each[0]: left for each in alternatives(text) if len(each) == 1 and each[0] not in NONTERMINALS})
    return meaning, parent


# The productions of a comment: pairs of a nonterminal and a tuple of symbols.
def said(comment, everywhere, parent):
    own = {}
    for left, text in rules(comment):
        if left is None or remarked(text)[1] not in ['', *REMARKS]:
            return {(None, (text,))}
        own.setdefault(left, set()).update(alternatives(text))
    mains = {left: some for left, some in own.items() if left in NONTERMINALS}
    if not mains:
        mains = {parent[left]: some for left, some in own.items() if left in parent}
    here = {left: some for left, some in own.items() if left not in NONTERMINALS}
    meaning = {**everywhere, **here, **HELPERS}
    return {(left, each) for left, some in mains.items() for each in written_out(some, meaning)}


# What the symbol of a production can be: each token of a class; and an Elision, or none.
def meant(symbol):
    if symbol.kind == 'class':
        return [(grammar.spelled(kind, src),) for kind in grammar.members(symbol.text, src.classes)]
    if symbol.text == 'Elision':
        return [(), ('Elision',)]
    return [(bare(symbol.text) if symbol.kind == 'nonterminal' else symbol.text,)]


# What the symbols of a production can be, together.
def together(production):
    return {tuple(itertools.chain(*one)) for one in itertools.product(*[meant(symbol) for symbol in production.symbols])}


# What the nonterminals that are written out stand for.
HELPERS = {name: set().union(*[together(each) for each in found if each.left == name]) for name in WRITTEN_OUT}


# The productions of the types, in the same form as those of a comment.
def typed(productions):
    return {(bare(each.left), one) for each in productions for one in written_out(together(each), HELPERS)}


# The kinds that words of a comment stand for: texts of tokens, and names that the standard has for some.
def kinds(words):
    by_text = {grammar.spelled(kind, src): [kind] for kind in src.texts}
    return [kind for word in words
            for kind in (grammar.members(tuple(TOKENS[word].split()), src.classes) if word in TOKENS else by_text.get(word, [word]))]


# The kinds that the comment above a class lists.
def listed(comment):
    first, *more = re.sub(r'(^|(?<= ))\d[\d.]* ', '', ' '.join(comment)).split('; ')
    text, remark = remarked(re.sub(r'^[A-Z]\w* : ', '', first))
    if ' but not ' in text:
        every, without = text.split(' but not ')
        return [kind for kind in kinds([every]) if kind not in kinds([without])]
    words = re.sub(r'^one of ', '', text).split() + [word for part in more if part.startswith('and ') for word in part.split()[1:]]
    return kinds([word for word in words if word != '|'] + ([remark] if remark else []))


# Productions of one side alone, the first few of them written as lines.
def lines(some):
    written = ['    %s : %s' % (left, ' '.join(symbols) or '[empty]') for left, symbols in sorted(some, key=str)]
    return written[:6] + (['    and %d others' % (len(written) - 6)] if len(written) > 6 else [])


# A comment must say what the types have.
def compare(name, comment, productions, everywhere, parent):
    says, has = said(comment, everywhere, parent), typed(productions)
    if says - has:
        wrong.append('\n'.join(['%s: the comment alone says' % name] + lines(says - has)))
    if has - says:
        wrong.append('\n'.join(['%s: the types alone have' % name] + lines(has - says)))


# Every comment with the productions that it stands above: of lists, of lines of operators, and of constructors.
def commented():
    for name, (comment, what) in src.names.items():
        if what[0] == 'ListOf':
            yield name, comment, [each for each in found if each.left == name]
    for line in src.lines:
        left = grammar.named(grammar.whole(line.result[1], src), src)
        yield line.name, line.comment, [each for each in found if each.left == left]
    for con in src.constructors:
        if 'Nonterminal' not in con.variables.values() and not any(part[0] == 'LeftToRight' for part in con.parts):
            yield con.name, con.comment, [each for each in found if each.constructor == con.name]


stands = list(commented())
everywhere, parent = printed_only([comment for _, comment, _ in stands] + [comment for comment, _ in src.classes.values()])
for name, comment, productions in stands:
    compare(name, comment, productions, everywhere, parent)
for name, (comment, _) in src.classes.items():
    if sorted(listed(comment)) != sorted(grammar.members(name, src.classes)):
        wrong.append('%s: the comment lists\n    %s\n  and the class has\n    %s'
                     % (name, ' '.join(listed(comment)), ' '.join(grammar.members(name, src.classes))))
if sum(len(productions) for _, _, productions in stands) != len(found):
    wrong.append('not every production has one comment')
if grammar.page(src) != grammar.read('docs/GRAMMAR.md'):
    wrong.append('docs/GRAMMAR.md is not what tools/grammar.py prints')
if wrong:
    print('\n'.join(wrong))
    print('0 passed, %d failed' % len(wrong))
    sys.exit(1)
print('tests/grammar.py: %d productions and %d classes, as the comments say and as docs/GRAMMAR.md prints them' % (len(found), len(src.classes)))
