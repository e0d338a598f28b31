"""The kinds of readers/kinds.txt, as the tests write them: those up to 17 by their names, as RULES T4 does, the others by their texts."""
import os
import re

LIST = os.path.join(os.path.dirname(os.path.abspath(__file__)), '..', 'readers', 'kinds.txt')
LAST_NAMED = 17


def part(name):
    """A part of the list: its lines as (number, name, texts)."""
    parts = re.split(r'^([a-z]+)$', open(LIST, encoding='utf-8').read(), flags=re.M)
    lines = [line.split(' ') for line in parts[parts.index(name) + 1].strip().split('\n')]
    return [(int(number), word, texts) for number, word, *texts in lines]


def small(name):
    """A name in capitals and small letters: `RegExp` for REG_EXP."""
    return ''.join(word.capitalize() for word in name.split('_'))


TOKENS, ROWS = part('tokens'), {number: small(name) for number, name, _ in part('rows')}
ORDER = [small(name) if number <= LAST_NAMED else texts[0] for number, name, texts in TOKENS]
KIND = {name: number for number, name in enumerate(ORDER, 1)}
KIND_OF = {text: number for number, _, texts in TOKENS for text in texts}
LAST = len(KIND)


def kinds(text):
    """The kind numbers of tokens that are written with spaces between them."""
    return [KIND[word] for word in text.split()]
