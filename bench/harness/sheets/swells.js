// Swells: half cycles over 110 % of nominal, joined where two at most lie between.
(rms, nominal, rate = 100) => rms
  .map((x, k) => [k, x / nominal])
  .filter(([, p]) => p > 1.1)
  .reduce((spans, [k, p]) => (
    last = spans[spans.length - 1],
    last !== undefined && k - last.end <= 2
      ? (last.end = k, last.peak = Math.max(last.peak, p), spans)
      : [...spans, { start: k, end: k, peak: p }]
  ), [])
  .map(({ start, end, peak }) => ({ at: start / rate, lasts: (end - start + 1) / rate, peak }))
