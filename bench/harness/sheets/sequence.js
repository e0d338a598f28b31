// The steps of a test: what is run, and when it goes on.
[
  { name: 'idle', run: () => source.off(), after: 2 },
  { name: 'ramp', run: t => source.set(nominal * Math.min(t / 5, 1)), until: ({ rms }) => rms > 0.98 * nominal },
  { name: 'hold', run: () => source.set(nominal), after: 60, check: ({ rms, thd }) => Math.abs(rms / nominal - 1) < 0.02 && thd < 5 },
  { name: 'dip', run: t => source.set(t < 0.2 ? 0.4 * nominal : nominal), after: 1, check: ({ tripped }) => !tripped },
  { name: 'end', run: () => (source.off(), log.close()), after: 0 }
]
