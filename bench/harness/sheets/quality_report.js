// A day of power quality, by phase and in sum.
({ site, from, to, phases, events = [], limits: { low = 0.9, high = 1.1, thd: worstThd = 8, share = 0.95 } = {} }) => (
  inside = (list, test) => list.filter(test).length / Math.max(list.length, 1),
  byPhase = phases.map(({ name, rms, thd, nominal = 230 }, k) => ({
    name,
    order: k + 1,
    voltage: {
      mean: rms.reduce((sum, x) => sum + x, 0) / rms.length,
      least: Math.min(...rms),
      most: Math.max(...rms),
      inside: inside(rms, x => low * nominal <= x && x <= high * nominal)
    },
    distortion: { worst: Math.max(...thd), inside: inside(thd, x => x <= worstThd) },
    events: events.filter(({ phase }) => phase === name || phase === 'all').length
  })),
  counts = events.reduce((sums, { kind, first, last }) => ({
    ...sums,
    [kind]: { n: (sums[kind] ?? { n: 0 }).n + 1, seconds: (sums[kind] ?? { seconds: 0 }).seconds + (last - first) / 1000 }
  }), {}),
  {
    title: 'Power quality at ' + site,
    from, to,
    phases: byPhase,
    events: counts,
    ok: byPhase.every(({ voltage, distortion }) => voltage.inside >= share && distortion.inside >= share) && !('interruption' in counts)
  }
)
