// A channel of a file: names, units and scales have defaults.
({ meta: { site, unit: { name: unit = 'V', scale = 1, offset = 0 } = {} }, data: [head, ...data] = [], ...rest }) => ({
  id: site + '/' + (rest.id ?? head),
  unit,
  values: data.map(x => x === null ? null : x * scale + offset),
  range: data.reduce(([low, high], x) => [Math.min(low, x), Math.max(high, x)], [Infinity, -Infinity])
})
