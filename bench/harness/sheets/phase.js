// Phase of the fundamental in degrees.
phase = Math.atan2(
  sum(u, (x, k) => x * Math.sin(2 * Math.PI * k / n)),
  sum(u, (x, k) => x * Math.cos(2 * Math.PI * k / n))
) * 180 / Math.PI
