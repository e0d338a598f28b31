#!/usr/bin/env python3
"""The sheets of docs/DECISIONS.md with what they give: K the kinds of the rows, R the records as number@place, A the abandoned count,
or the number and place of the refusal. `p:` is the pattern entry; a line break is written as the sign below, before its token.
Spelled as text and turned into kinds and flags here, by a few lines that share nothing with the reader."""
import re

from kinds import KIND, KIND_OF

SIGNS = sorted((text for text in KIND_OF if not text[0].isalpha()), key=len, reverse=True)
TOKEN = re.compile(r'\s*(?:(↵)|(/r/)|("s")|([A-Za-z]\w*)|(\d+)|(' + '|'.join(map(re.escape, SIGNS)) + r'))')


def tokens(text):
    kinds, flags, brk, at = [], [], 0, 0
    text = text.strip()
    while at < len(text):
        m = TOKEN.match(text, at)
        if not m:
            raise ValueError(text[at:])
        at = m.end()
        if m.group(1):
            brk = 1
            continue
        if m.group(2):
            kinds.append(KIND['RegExp'])
        elif m.group(3):
            kinds.append(KIND['Str'])
        elif m.group(4):
            kinds.append(KIND_OF.get(m.group(4), KIND['Ident']))
        elif m.group(5):
            kinds.append(KIND['Number'])
        else:
            kinds.append(KIND_OF[m.group(6)])
        flags.append(brk)
        brk = 0
    return kinds, flags


CASES = '''
a.yield | K 1 16
{await: 1} | K 14 3 13 7
{await} | 8 2
(await) => a | 8 1
const | 8 0
a + class | 8 2
new a | 8 0
a.in.null.new | K 1 16 16 16
a."s" | 8 2
a ↵ (b) | K 1 1 18
↵ a | K 1
a ↵ ++ | 8 1
a + | 8 2
{this} | 8 2
{1 = a} | 8 2
{a b} | 8 2
{a()} | 8 2
{,} | 8 1
{/r/: a} | 8 1
{async a: b} | 8 2
{static [a]: b} | 8 2
{a} | K 1 11 7
{a, b = 1} = c | K 40 49 40 3 50 43 1 25
({a, b = 1}) => c | K 30 35 30 3 36 32 1 28
({a: [b]}) => c | K 14 30 31 13 32 1 28
{a: b, [c]: d} = e | K 14 40 48 1 15 40 48 43 1 25
[,] | K 9 5
[a,] | K 1 5
[,,] = a | K 9 9 42 1 25
[...a,] | K 1 10 6
[...a,,] | K 1 10 9 5
[...a,b,] | K 1 10 1 5
{...a,} | K 1 10 8
[...a,,] = b | 10 1
f(...a, b,) | K 1 1 10 1 18
f(,) | 8 2
{[a, b]: c} | 8 3
a[b, c] | K 1 1 1 27 17
a => b, c | K 30 1 28 1 27
a ? b, c : d | 8 3
a + b => c | 8 3
a = b => c | K 40 30 1 28 25
a ? b : c => d | K 1 1 30 1 28 24
async => a | K 30 1 28
async async => a | K 30 1 29
async ↵ a => b | 8 1
async ↵ (a) => b | 8 4
async ↵ (a) | K 1 1 18
!async a => b | 8 2
async < b | K 1 1 22 A 1
async < 1 | K 1 3 22 A 0
async ↵ < b | K 1 1 22 A 0
(a = (b)) | A 2
((a), b) | A 1
async((a)) | A 1
(a?) | 8 2
(this: a) | 8 1
(static a) | 8 2
(const a) | 8 1
(){} | 8 2
async(){} | 8 3
(...a, b) => c | 12 3
(...a | 12 3
p: [...a | 12 3
p: [...a = 1, b] | 12 5
(...a) | 8 4
p: {...[a], b} | 12 5
p: {...[a]} | 11 2
p: {...a = 1} | 11 2
(...a = b ?? c || d) ↵ => e ?? f && g | R 6@5 2@3 1@10 6@12
(a) => {}.b | 8 4
(a,) | 8 3
() | 8 1
(a, ...b) | 8 3
(...[a]) | 8 1
async(...a) | 8 5
async(...a, b) | 12 4
!async(...a) | K 1 1 10 18 19
b + async(...a) | K 1 1 1 10 18 22
async ↵ (...a) | K 1 1 10 18
async(...async) | K 1 1 10 18 A 1
p: a = {b = 1} | K 30 1 3 12 7 34 R 8@4
p: ...a | 8 0
p: a, b | 8 1
++-a | 9 1
++a++ | 9 1
++(a) | K 40 41 20 A 0
++a ** b | K 40 20 1 22
a++ ++ | 8 2
-a ** -b ** c | R 7@5 7@2
a || b ?? c && d | R 6@3
a as b | 8 1
as => satisfies | K 30 1 28
1 = 2 3 | 9 0
[...a,] = b ?? c || d | R 4@0 6@7
[(a = 1)] = b | 9 2
(1) = b | 9 1
(([a])) = b | 9 1
[a] += b | 9 0
([a])++ | 9 0
[...1, 2] = a | 10 1
[1, ...a, b] = c | 9 1
{...[...a,],} = b | R 3@2 4@0 4@2
[...[...a,],] = b | R 4@2 4@0
{...([a])} = b | 9 2
[...a = 1] = b | 9 2
[...(a)] = b | K 40 41 44 42 1 25
{...{a}} = b | R 3@2
[a += 1] = b | K 40 3 45 42 1 25 R 5@2
{a = {b = 1}} | R 8@5 8@2
[{a = 1}.x] = b | K 1 3 12 7 46 42 1 25 R 8@3
'''


def cases():
    """(text, is pattern, kinds, flags, expectation) where the expectation is ('refused', number, place) or ('read', K, R, A) with None for
    what is not told; R is [] where a K is told and no R."""
    for line in CASES.strip().split('\n'):
        text, want = line.rsplit(' | ', 1)
        pattern = text.startswith('p: ')
        kinds, flags = tokens(text[3:] if pattern else text)
        if re.match(r'\d', want):
            yield text, pattern, kinds, flags, ('refused',) + tuple(map(int, want.split()))
            continue
        k = re.search(r'K ((?:\d+ ?)+)', want)
        r = re.search(r'R ((?:\d+@\d+ ?)+)', want)
        a = re.search(r'A (\d+)', want)
        rows = [int(x) for x in k.group(1).split()] if k else None
        records = [tuple(map(int, x.split('@'))) for x in r.group(1).split()] if r else ([] if k else None)
        yield text, pattern, kinds, flags, ('read', rows, records, int(a.group(1)) if a else None)


if __name__ == '__main__':
    for case in cases():
        print(case)
