// Marks of an operator beside the samples they were set at, the newest first.
marks.map(({ at, who: { name, ...who } = { name: 'box' }, text = '' }) => [at, name, text.trim(), typeof who.role])
  .sort(([a], [b]) => b - a)
