// One pole, from a start value on.
(x, { alpha = 0.1, start = x[0] ?? 0 } = {}) =>
  x.reduce(({ y, last }, v) => (last += alpha * (v - last), { y: [...y, last], last }), { y: [], last: start }).y
