// Steep edges with what went before and after.
({ channels, rate, pre = 50, post = 200, slope = 1e3 }) => channels.flatMap(({ name, data }) => (
  at = data.findIndex((v, k) => k > 0 && Math.abs(v - data[k - 1]) * rate > slope),
  at < 0 ? [] : [{ name, at, window: data.slice(Math.max(at - pre, 0), at + post) }]
))
