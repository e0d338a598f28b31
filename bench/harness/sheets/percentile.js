// A percentile, between two values in proportion.
(list, p = 95) => (
  sorted = [...list].sort((a, b) => a - b),
  r = p / 100 * (sorted.length - 1),
  i = Math.floor(r),
  sorted[i] + (r - i) * ((sorted[i + 1] ?? sorted[i]) - sorted[i])
)
