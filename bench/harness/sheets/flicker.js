// Short-term flicker severity from its percentiles.
pst = Math.sqrt(
  0.0314 * p(0.1) +
  0.0525 * (p(0.7) + p(1) + p(1.5)) / 3 +
  0.0657 * (p(2.2) + p(3) + p(4)) / 3 +
  0.28 * (p(6) + p(8) + p(10) + p(13) + p(17)) / 5 +
  0.08 * (p(30) + p(50) + p(80)) / 3
),
plt = ([...ten, pst].slice(-12).reduce((sum, x) => sum + x ** 3, 0) / 12) ** (1 / 3)
