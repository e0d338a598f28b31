// Sags by the running rms: where they begin and end, how deep they are, and the highest current meanwhile.
({ u, i, rate = 20000, nominal = 230 }, { below = 0.9, above = 0.92, least = 200, ...more } = {}) => (
  squares = u.map(x => x * x),
  sums = squares.reduce((all, x) => [...all, all[all.length - 1] + x], [0]),
  rms = u.map((x, k) => k < least ? null : Math.sqrt((sums[k + 1] - sums[k + 1 - least]) / least)),
  events = rms.reduce(({ list, open }, x, k) =>
    x === null ? { list, open }
      : open === null ? x < below * nominal ? { list, open: { first: k - least + 1, last: k, min: x } } : { list, open }
        : x > above * nominal ? { list: [...list, { ...open, last: k }], open: null }
          : { list, open: { first: open.first, last: k, min: Math.min(open.min, x) } },
    { list: [], open: null }).list,
  {
    rate,
    count: events.length,
    events: events.map(({ first, last, min: low }) => ({
      at: first / rate,
      length: (last - first + 1) / rate,
      depth: 1 - low / nominal,
      current: Math.max(...i.slice(first, last + 1))
    })),
    ...more
  })
