// Voltage unbalance from three line voltages (IEC 61000-4-30).
({ u12, u23, u31 }) => (
  beta = (u12 ** 4 + u23 ** 4 + u31 ** 4) / (u12 ** 2 + u23 ** 2 + u31 ** 2) ** 2,
  root = Math.sqrt(3 - 6 * beta),
  100 * Math.sqrt((1 - root) / (1 + root))
)
