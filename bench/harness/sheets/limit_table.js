// Each quantity beside its limits; all must hold.
checked = Object.entries(limits).map(([name, [low, high = Infinity]]) => ({
  name, low, high, value: measured[name], ok: measured[name] >= low && measured[name] <= high
})),
passed = checked.every(({ ok }) => ok)
