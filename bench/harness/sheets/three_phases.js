// All phases within limits, or null.
({ u1, u2, u3, ...rest }, limits = { low: 0.9, high: 1.1 }) =>
  [u1, u2, u3].every(u => limits.low <= u && u <= limits.high) ? report(rest) : null
