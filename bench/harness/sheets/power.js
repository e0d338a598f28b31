// Active, reactive and apparent power of a phase.
({ u, i }) => (
  p = u.reduce((sum, x, k) => sum + x * i[k], 0) / u.length,
  s = rms(u) * rms(i),
  q = Math.sqrt(Math.max(s ** 2 - p ** 2, 0)) * (lags(u, i) ? 1 : -1),
  { p, q, s, factor: s === 0 ? 1 : p / s }
)
