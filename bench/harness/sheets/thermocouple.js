// Type K: degrees from millivolts and the cold junction.
(mv, cold = 25) => (
  e = mv + 3.95e-2 * cold + 2.3e-5 * cold ** 2,
  e < 0
    ? 25.173 * e - 1.166 * e ** 2 - 1.083 * e ** 3
    : e < 20.644
      ? 25.083 * e + 7.86e-2 * e ** 2 - 0.25 * e ** 3
      : -131.8 + 48.302 * e - 1.646 * e ** 2 + 5.464e-2 * e ** 3
)
