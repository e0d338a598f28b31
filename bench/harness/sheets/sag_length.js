// The span of a sag, and whether it was short enough.
[first, last] = sag(u, { below: 0.9 * nominal, above: 0.92 * nominal, least: 200 }),
length = last - first + 1,
ok = length <= limit
