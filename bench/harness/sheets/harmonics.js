// Magnitudes of the harmonics by their order.
orders
  .map(h => samples.reduce(([re, im], x, k) => [
    re + x * Math.cos(2 * Math.PI * h * k / n),
    im - x * Math.sin(2 * Math.PI * h * k / n)
  ], [0, 0]))
  .map(([re, im]) => 2 * Math.hypot(re, im) / n)
