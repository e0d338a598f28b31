// Counts by bins, what lies outside in the first and the last.
values.reduce((bins, v) => (
  k = Math.min(Math.max(Math.floor((v - low) / width), 0), bins.length - 1),
  bins[k] += 1,
  bins
), zeros(count))
