// Two of three sensors agree, or there is no value.
({ a, b, c, tolerance: eps = 0.5 }) =>
  Math.abs(a - b) <= eps ? (a + b) / 2
    : Math.abs(b - c) <= eps ? (b + c) / 2
      : Math.abs(a - c) <= eps ? (a + c) / 2
        : null
