// Raw channels in their units, without the spare ones.
channels
  .map(({ name, scale = 1, offset = 0 }, k) => [name, raw[k].map(x => (x - offset) * scale)])
  .filter(([name]) => name !== 'spare')
