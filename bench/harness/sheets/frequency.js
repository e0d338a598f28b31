// Frequency from the rising zero crossings, with the place between two samples.
crossings = u.reduce((found, x, k) =>
  k > 0 && u[k - 1] < 0 && x >= 0 ? [...found, k - x / (x - u[k - 1])] : found, []),
[begun, ended] = [crossings[0], crossings[crossings.length - 1]],
frequency = crossings.length < 2 ? null : rate * (crossings.length - 1) / (ended - begun)
