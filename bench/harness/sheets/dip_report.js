// The report on voltage dips, with their class.
report({
  title: 'Voltage dip',
  class: a > 0.8 ? 'A' : a > 0.7 ? 'B' : a > 0.4 ? 'C' : 'D',
  rows: events.map(e => ({
    at: e.first / rate,
    for: (e.last - e.first + 1) / rate,
    least: min(e.u),
    phases: [...e.phases],
    note: e.note ?? ''
  })),
  total: events.reduce((t, { first, last }) => t + last - first + 1, 0) / rate,
  ok: events.every(({ u, first, last }) =>
    last - first < 0.02 * rate || min(u) > 0.7 && last - first < 0.5 * rate || min(u) > 0.8)
})
