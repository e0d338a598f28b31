// A sample, or the last one.
(u, i) => ({ window: u }).window[i] ?? u[u.length - 1]
