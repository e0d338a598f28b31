#!/usr/bin/env python3
"""Tries tools/stack.py and tools/frames.py on small functions in C: their frames are those that gcc says, and what no bound can be given for is refused.

    tests/stack.py      needs gcc and objdump
"""
import os
import subprocess
import sys
import tempfile

sys.path.insert(0, os.path.join(os.path.dirname(os.path.abspath(__file__)), '../tools'))
import frames
import stack

# Frames of some sizes, arguments on the stack, a table of jumps, a call as the last thing: what is called, and nothing that recurs.
GOOD = """
void *memset(void *, int, unsigned long);
__attribute__((noinline)) long many(long a, long b, long c, long d, long e, long f, long g, long *h) { *h = a + b; return c * d + e * f + g; }
__attribute__((noinline)) long leaf(volatile long *x) { volatile long room[40]; room[*x & 31] = 1; return room[*x & 15]; }
__attribute__((noinline)) long cases(unsigned x) {
    volatile long y = 1;
    switch (x) { case 0: y = leaf(&y); break; case 1: y *= 3; break; case 2: y += 4; break; case 3: y -= 7; break; case 4: y ^= 9; break; case 5: y = 11; }
    return y + 1;
}
long cleared(unsigned x, unsigned long n) { char room[200]; memset(room, x, n); return many(1, 2, 3, 4, 5, 6, room[x & 63], (long *)(room + 8)) + cases(x); }
long last(unsigned x) { return cleared(x + 1, x); }
"""

# What must be refused, and by which words.
BAD = {
    'cycle': 'long odd(long n); __attribute__((noinline)) long even(long n) { volatile long m = n; return m ? 1 + odd(m - 1) : 0; }'
             ' __attribute__((noinline)) long odd(long n) { volatile long m = n; return m ? 1 + even(m - 1) : 0; }',
    'indirect': 'long call(long (*f)(long)) { return f(1) + 1; }',
    'indirect ': 'long call(long (*f)(long)) { return f(1); }',
    'not constant': 'long use(volatile char *, long); __attribute__((noinline)) long use(volatile char *p, long n) { return p[n]; }'
                    ' long vary(long n) { volatile char room[n]; room[n - 1] = 1; return use(room, n - 1); }',
    'nothing is known of': 'long other(void); long call(void) { return other() + 1; }',
    'no table of jumps': 'static long one(long n) { return n + 1; } static long two(long n) { return n + 2; }'
                         ' long (*const all[])(long) = {one, two};',
    'address of a function': 'static long one(long n) { return n + 1; } long use(void *); long call(void) { return (long)one; }',
}

# A jump by a table, as the archive's compiler writes it: 18 and 20 lead to the first call, 19 to the second, and no other value to either.
TABLE = """
    .section .text.f,"ax",@progbits
    .globl f
    .type f,@function
f:  add $-18,%eax
    cmp $2,%eax
    ja .Lother
    lea .Ltable(%rip),%rsi
    movslq (%rsi,%rax,4),%rax
    add %rsi,%rax
    jmp *%rax
.Lfirst:
    call g
    ret
.Lsecond:
    call g
.Lother:
    ret
    .size f,.-f
    .section .text.g,"ax",@progbits
    .globl g
    .type g,@function
g:  ret
    .size g,.-g
    .section .rodata,"a"
    .p2align 2
.Ltable:
    .long .Lfirst-.Ltable, .Lsecond-.Ltable, .Lfirst-.Ltable
"""


def untested_calls(folder, constants):
    """How many of the two calls of TABLE no test stands before that found one of the constants."""
    source, target = os.path.join(folder, 'a.s'), os.path.join(folder, 'a.o')
    open(source, 'w').write(TABLE)
    subprocess.run(['gcc', '-c', source, '-o', target], check=True, cwd=folder)
    function = next(each for each in frames.read_archive(target, {}) if each.name == 'f')
    return len(frames.before_test(function, constants) & set(function.calls))


def compiled(folder, text):
    """The functions of a text in C, and the frames that gcc says."""
    source, target = os.path.join(folder, 'a.c'), os.path.join(folder, 'a.o')
    open(source, 'w').write(text)
    words = ['gcc', '-O2', '-fPIC', '-ffunction-sections', '-fno-asynchronous-unwind-tables', '-fno-ipa-ra', '-fcf-protection=none', '-fstack-usage', '-w']
    subprocess.run(words + ['-c', source, '-o', target], check=True, cwd=folder)
    lines = [line.split('\t') for line in open(os.path.join(folder, 'a.su'))]
    return target, {line[0].split(':')[-1]: int(line[1]) for line in lines}


def refusal(folder, text):
    try:
        functions = frames.read_archive(compiled(folder, text)[0], stack.OUTSIDE)
        graph = stack.Graph(functions, {}, {})
        for function in functions:
            graph.longest(function.name, 0)
    except frames.Wrong as wrong:
        return str(wrong)
    return 'not refused'


def refused_opener(name):
    """What is said of one more opener of the cycle, that stands at no bracket."""
    kept = stack.OPENERS['parse']
    stack.OPENERS['parse'] = kept + [name]
    try:
        stack.Source('parse', False)
        return 'not refused'
    except frames.Wrong as wrong:
        return str(wrong)
    finally:
        stack.OPENERS['parse'] = kept


def main():
    wrong = []
    with tempfile.TemporaryDirectory() as folder:
        target, said = compiled(folder, GOOD)
        functions = frames.read_archive(target, stack.OUTSIDE)
        for function in functions:
            if function.frame + 8 != said[function.name]:
                wrong.append('%s: a frame of %d bytes, and gcc says %d with the return address' % (function.name, function.frame, said[function.name]))
        frame = {function.name: function.frame for function in functions}
        ways = stack.Graph(functions, {}, {}).longest('last', 0)[0]
        if ways['cases'][0] != frame['cases'] + 8 + frame['leaf'] or not any(function.table for function in functions):
            wrong.append('a table of jumps: %s bytes, of %s' % (ways['cases'], frame))
        # The arguments of `many` are on the stack at its call, and not at that of memset.
        if ways['last'] != (frame['last'] + frame['cleared'] - 16 + 8 + stack.OUTSIDE['memset'], ('cleared', 0)):
            wrong.append('the longest way: %s bytes, of %s' % (ways['last'], frame))
        for constants, wanted in ([18, 20], 1), ([18, 19, 20], 0), ([18], 2), ([], 2):
            got = untested_calls(folder, constants)
            if got != wanted:
                wrong.append('a table of jumps, of %s: %d calls without a test, and not %d' % (constants, got, wanted))
        for words, text in BAD.items():
            got = refusal(folder, text)
            if words.strip() not in got:
                wrong.append('wanted: %s; got: %s' % (words, got))
    for name in 'comma', 'assign', 'element':
        got = refused_opener(name)
        if 'not where it has found an opening bracket' not in got:
            wrong.append('%s as an opener: %s' % (name, got))
    print('\n'.join(wrong) or 'tests/stack.py: frames as gcc says them; %d texts without a bound are refused' % (len(BAD) + 3))
    sys.exit(bool(wrong))


main()
