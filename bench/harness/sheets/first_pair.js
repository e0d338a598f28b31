// The first of a pair; counts how often it is asked for.
[{ u: [a0, a1, ...tail], i: { re = 0, im = 0 } = {} }, count += 1][0]
